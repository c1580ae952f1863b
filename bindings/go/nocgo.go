//go:build !cgo

package commonware

// A build without cgo ends here, where the compiler quotes this sentence: the functions are those of an archive.
const _ int = "commonware needs cgo: build it with CGO_ENABLED=1 and a C compiler"
