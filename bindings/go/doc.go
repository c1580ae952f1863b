// Package commonware has what a consensus node needs to know of its committee: how many of n participants may be
// faulty, the encodings of committees and of certificates, and of sets, maps and bimaps of keys of any size, and which
// members signed both of two different values; all by the number of members or by what they weigh.
//
// Each call is one or two calls of the static library libcommonware.a, whose contracts are proved; nothing is decided
// here, but that a key of another size than the keys of a set isn't there, and where one of no bytes is. This package
// itself isn't proved, but tested.
//
// Decode functions take the whole input. Read functions take limits too, and return what follows the value. Sets,
// maps and certificates have slices of their input, of which nothing is copied: whoever writes to the input changes
// them. No result has spare capacity: whoever appends to one changes nothing else. No call keeps a pointer in C.
//
// Errors without a number are variables, as [ErrEndOfInput], and those with numbers types, as [InvalidLengthError];
// errors.Is and errors.As find them. What is wrong with one of two certificates is in a [CertificateError].
//
// There is no state, so any number of goroutines may call at once, as long as none writes to the arguments.
//
// The archive is looked for in the folders that CGO_LDFLAGS names, and then in prebuilt/x86_64-linux beside the
// folder of this module:
//
//	CGO_LDFLAGS=-L/folder/of/the/archive go build
//
// It takes cgo: without that the build fails, and says so.
//
// The archive is for Linux on x86-64-v2 processors. [Version] returns which version it is. A program that was linked
// with another major version panics at its start.
package commonware
