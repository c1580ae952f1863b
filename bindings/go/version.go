//go:build cgo

package commonware

import "fmt"

// Version returns the version of the library that is linked: its major version, its minor version
// and its patch. The major version is the one that this module needs.
func Version() (major, minor, patch uint32) {
	number := callVersion()
	return number / 1_000_000, number / 1000 % 1000, number % 1000
}

// A program that was linked with a library of another major version doesn't start, since the
// functions of that one may say other things.
func init() {
	if major, minor, patch := Version(); major != neededMajor {
		panic(fmt.Sprintf("commonware: the linked library is version %d.%d.%d, and this module needs %d",
			major, minor, patch, neededMajor))
	}
}
