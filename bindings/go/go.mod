module commonware.example/commonware/v2

go 1.19
