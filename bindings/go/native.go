package commonware

// #cgo CFLAGS: -I${SRCDIR}/../c
// #cgo LDFLAGS: -L${SRCDIR}/../prebuilt/x86_64-linux -l:libcommonware.a
// #include "commonware.h"
// #if COMMONWARE_VERSION_MAJOR != 2
// #error "commonware.h has another major version than 2, which this module needs"
// #endif
import "C"

import (
	"fmt"
	"unsafe"
)

// neededMajor is the major version of the library that these functions call.
const neededMajor = C.COMMONWARE_VERSION_MAJOR

// The statuses of the library that aren't errors by themselves.
const (
	statusOK            = C.COMMONWARE_OK
	statusNotStrict     = C.COMMONWARE_NOT_STRICT
	statusRoom          = C.COMMONWARE_ROOM
	statusRepeatedValue = C.COMMONWARE_REPEATED_VALUE
)

// plain has the errors of the statuses that have no number.
var plain = map[uint32]error{
	C.COMMONWARE_END_OF_INPUT:   ErrEndOfInput,
	C.COMMONWARE_INVALID_VARINT: ErrInvalidVarint,
	C.COMMONWARE_NOT_STRICT:     ErrNotStrict,
	C.COMMONWARE_MEMORY:         ErrOutOfMemory,
	C.COMMONWARE_NO_MEMBERS:     ErrNoMembers,
	C.COMMONWARE_SAME_VALUE:     ErrSameValue,
	C.COMMONWARE_OUTSIDE:        ErrOutside,
	C.COMMONWARE_TOO_FEW:        ErrTooFew,
	C.COMMONWARE_NO_MODEL:       ErrNoModel,
	C.COMMONWARE_NO_SLOT:        ErrNoSlot,
	C.COMMONWARE_OTHER_SLOT:     ErrOtherSlot,
	C.COMMONWARE_NO_SIZE:        ErrNoSize,
	C.COMMONWARE_TOO_LIGHT:      ErrTooLight,
}

// errorOf returns the error of a status with its number, or nil where it is OK.
func errorOf(status uint32, number int) error {
	switch status {
	case statusOK:
		return nil
	case C.COMMONWARE_INVALID_LENGTH:
		return InvalidLengthError{Length: number}
	case C.COMMONWARE_LEFT_OVER:
		return LeftOverError{Count: number}
	case C.COMMONWARE_NOT_WHOLE:
		return NotWholeError{Count: number}
	case C.COMMONWARE_REPEATED_KEY:
		return RepeatedKeyError{Index: number}
	case C.COMMONWARE_ZERO_WEIGHT:
		return ZeroWeightError{Index: number}
	case C.COMMONWARE_WEIGHT_OVERFLOW:
		return WeightOverflowError{Index: number}
	}
	if err, isThere := plain[status]; isThere {
		return err
	}
	return fmt.Errorf("commonware: status %d of another version of the library", status)
}

// The pointers below point to memory without pointers, as C gets it for the length of one call.

func bytePointer(bytes []byte) *C.uint8_t {
	if len(bytes) == 0 {
		return nil
	}
	return (*C.uint8_t)(unsafe.Pointer(&bytes[0]))
}

func indexPointer(indices []uint32) *C.uint32_t {
	if len(indices) == 0 {
		return nil
	}
	return (*C.uint32_t)(unsafe.Pointer(&indices[0]))
}

func weightPointer(weights []uint64) *C.uint64_t {
	if len(weights) == 0 {
		return nil
	}
	return (*C.uint64_t)(unsafe.Pointer(&weights[0]))
}

// flat returns the bytes of members, one after another, where they are.
func flat(members []Member) []byte {
	if len(members) == 0 {
		return nil
	}
	return unsafe.Slice(&members[0][0], MemberSize*len(members))
}

// written returns what was written to a room, or why nothing was. It has no spare capacity: a caller who appends to it
// changes nothing else. Where it takes under half of the room, it is copied, so that it doesn't keep the whole.
func written(view writtenView, room []byte) ([]byte, error) {
	if view.status == statusNotStrict {
		return nil, NotStrictError{Index: view.number}
	}
	if err := errorOf(view.status, view.number); err != nil {
		return nil, err
	}
	if view.size < len(room)/2 {
		exact := make([]byte, view.size)
		copy(exact, room)
		return exact, nil
	}
	return room[:view.size:view.size], nil
}
