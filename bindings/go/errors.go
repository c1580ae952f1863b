package commonware

import (
	"errors"
	"fmt"
	"math"
)

// What is wrong with an input, with what is to be written or with two certificates, where no number tells more.
var (
	// ErrEndOfInput means that the input ends before the value does.
	ErrEndOfInput = errors.New("commonware: unexpected end of input")
	// ErrInvalidVarint means that a varint is longer than it has to be, or past 4294967295.
	ErrInvalidVarint = errors.New("commonware: invalid varint")
	// ErrNotStrict means that the items aren't strictly increasing. Of signers that are to be written a
	// [NotStrictError] tells which.
	ErrNotStrict = errors.New("commonware: items must be sorted and unique")
	// ErrOutOfMemory means that an allocation of the library failed. It says nothing of the arguments.
	ErrOutOfMemory = errors.New("commonware: out of memory")
	// ErrNegative means that a size or a limit is negative.
	ErrNegative = errors.New("commonware: a negative size or limit")
	// ErrNoSize means that keys are to be written that have no bytes: how many there are can't be told.
	ErrNoSize = errors.New("commonware: keys of no bytes")
	// ErrNoModel means that the k of a fault model is below 2.
	ErrNoModel = errors.New("commonware: k is below 2")
	// ErrNoMembers means that a committee has no members.
	ErrNoMembers = errors.New("commonware: the committee has no members")
	// ErrOutside means that a signer is no member of the committee.
	ErrOutside = errors.New("commonware: a signer is no member of the committee")
	// ErrTooFew means that all signers are members, and that they are fewer than a quorum.
	ErrTooFew = errors.New("commonware: fewer signers than a quorum")
	// ErrTooLight means that all signers are members, and that they weigh less than a quorum.
	ErrTooLight = errors.New("commonware: the signers weigh less than a quorum")
	// ErrSameValue means that both certificates are for the same value.
	ErrSameValue = errors.New("commonware: both certificates are for the same value")
	// ErrNoSlot means that a value is no decision for a slot.
	ErrNoSlot = errors.New("commonware: a value without a slot")
	// ErrOtherSlot means that the values are for two different slots: this rule allows both.
	ErrOtherSlot = errors.New("commonware: two different slots")
)

// InvalidLengthError is a length that is out of range: of an input the range that is allowed, of what is written, and
// of weights, 4294967295.
type InvalidLengthError struct {
	// Length is that length.
	Length int
}

func (e InvalidLengthError) Error() string {
	return fmt.Sprintf("commonware: length %d is out of range", e.Length)
}

// LeftOverError means that bytes follow the value, and none may.
type LeftOverError struct {
	// Count is how many they are.
	Count int
}

func (e LeftOverError) Error() string {
	return fmt.Sprintf("commonware: %d bytes left over", e.Count)
}

// NotStrictError means that signers can't be written since they aren't strictly increasing. It is an [ErrNotStrict].
type NotStrictError struct {
	// Index is that of the first signer that isn't greater than the one before it.
	Index int
}

func (e NotStrictError) Error() string {
	return fmt.Sprintf("commonware: signer %d isn't greater than the one before it", e.Index)
}

// Is tells that the error is an ErrNotStrict.
func (e NotStrictError) Is(target error) bool {
	return target == ErrNotStrict
}

// NotWholeError means that bytes follow the last whole key, or the last whole pair of a map.
type NotWholeError struct {
	// Count is how many they are.
	Count int
}

func (e NotWholeError) Error() string {
	return fmt.Sprintf("commonware: %d bytes after the last whole item", e.Count)
}

// RepeatedKeyError means that a pair has the key of an earlier one.
type RepeatedKeyError struct {
	// Index is the least index of such a pair.
	Index int
}

func (e RepeatedKeyError) Error() string {
	return fmt.Sprintf("commonware: pair %d has the key of an earlier one", e.Index)
}

// RepeatedValueError means that two pairs of a bimap have the same value.
type RepeatedValueError struct {
	// First is the index of the earlier pair, and Second the least index of a pair whose value an earlier one has.
	First, Second int
}

func (e RepeatedValueError) Error() string {
	return fmt.Sprintf("commonware: pairs %d and %d have the same value", e.First, e.Second)
}

// ZeroWeightError means that a weight is 0.
type ZeroWeightError struct {
	// Index is that of the first such weight.
	Index int
}

func (e ZeroWeightError) Error() string {
	return fmt.Sprintf("commonware: weight %d is 0", e.Index)
}

// WeightOverflowError means that the sum of weights is past 18446744073709551615.
type WeightOverflowError struct {
	// Index is that of the weight with which it is.
	Index int
}

func (e WeightOverflowError) Error() string {
	return fmt.Sprintf("commonware: with weight %d the sum is past %d", e.Index, uint64(math.MaxUint64))
}

// CertificateError is what is wrong with one of two certificates.
type CertificateError struct {
	// Which is 1 or 2, for the first or the second certificate.
	Which int
	// Err is what is wrong with it.
	Err error
}

func (e CertificateError) Error() string {
	return fmt.Sprintf("certificate %d: %v", e.Which, e.Err)
}

// Unwrap returns what is wrong with the certificate.
func (e CertificateError) Unwrap() error {
	return e.Err
}

// indexError is what a call panics with where there is no item at an index. It is a runtime.Error, as that of a slice.
type indexError struct {
	index, count int
}

func (e indexError) Error() string {
	return fmt.Sprintf("commonware: index out of range [%d] with length %d", e.index, e.count)
}

// RuntimeError is there for runtime.Error.
func (e indexError) RuntimeError() {}
