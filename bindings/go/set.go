//go:build cgo

package commonware

import "math"

// NoLimit is the most items of a Read function that limits them by what the input has alone.
const NoLimit = math.MaxInt

// items are byte sequences of one size, one after another. Where the size is 0, only count says how many there are.
type items struct {
	size, count int
	bytes       []byte
}

// itemsAt returns the items that begin at an offset of the input, which has them.
func itemsAt(size, count int, input []byte, start int) items {
	end := start + count*size
	return items{size, count, input[start:end:end]}
}

// at returns the item at an index; it panics where there is none, as a slice does.
func (it items) at(index int) []byte {
	if index < 0 || index >= it.count {
		panic(indexError{index, it.count})
	}
	start, end := index*it.size, (index+1)*it.size
	return it.bytes[start:end:end]
}

func (it items) all() [][]byte {
	all := make([][]byte, it.count)
	for index := range all {
		all[index] = it.at(index)
	}
	return all
}

// A Set is the keys of a set, strictly increasing, where its encoding has them, all of one size. Every number from 0
// on is a size; keys of no bytes are all the same key, so a set has at most one of them. The zero value is a set
// without keys, of size 0.
type Set struct {
	keys items
}

// areNegative tells whether one of these numbers is negative.
func areNegative(numbers ...int) bool {
	for _, number := range numbers {
		if number < 0 {
			return true
		}
	}
	return false
}

// whole returns an error where bytes follow a value.
func whole(rest []byte, err error) error {
	if err == nil && len(rest) > 0 {
		return LeftOverError{Count: len(rest)}
	}
	return err
}

// rest returns the last bytes of an input, without what may be behind it.
func rest(input []byte, left int) []byte {
	return part(input, len(input)-left, left)
}

// ReadSet decodes the set of least to most keys of size bytes at the start of the input, and returns it with what
// follows. Else the error is the first fault (decoding error): [ErrEndOfInput], [ErrInvalidVarint],
// [InvalidLengthError] or [ErrNotStrict]; or [ErrNegative].
func ReadSet(size int, input []byte, least, most int) (Set, []byte, error) {
	if areNegative(size, least, most) {
		return Set{}, nil, ErrNegative
	}
	view := callSetRead(size, input, least, most)
	if err := errorOf(view.status, view.number); err != nil {
		return Set{}, nil, err
	}
	return Set{itemsAt(size, int(view.count), input, view.start)}, rest(input, view.left), nil
}

// DecodeSet decodes the set of keys of size bytes that the whole input is, of any number of keys. The errors are those
// of [ReadSet], and [LeftOverError].
func DecodeSet(size int, input []byte) (Set, error) {
	set, rest, err := ReadSet(size, input, 0, NoLimit)
	if err := whole(rest, err); err != nil {
		return Set{}, err
	}
	return set, nil
}

// EncodeSetDedup encodes the set of keys of size bytes, one after another: sorted, each key once. The keys may come in
// any order and repeat. The errors are [ErrNoSize] where the size is 0, [NotWholeError], [InvalidLengthError] where the
// keys are more than 4294967295, [ErrNegative] and [ErrOutOfMemory].
func EncodeSetDedup(size int, keys []byte) ([]byte, error) {
	if size < 0 {
		return nil, ErrNegative
	}
	room := make([]byte, 5+len(keys))
	return written(callSetEncodeDedup(size, keys, room), room)
}

// Size returns how many bytes a key has.
func (s Set) Size() int {
	return s.keys.size
}

// Len returns how many keys there are.
func (s Set) Len() int {
	return s.keys.count
}

// Bytes returns the bytes of all keys, one after another.
func (s Set) Bytes() []byte {
	return s.keys.bytes
}

// Key returns the key at an index. It panics where there is none, as a slice does.
func (s Set) Key(index int) []byte {
	return s.keys.at(index)
}

// Keys returns all keys in order.
func (s Set) Keys() [][]byte {
	return s.keys.all()
}

// Position returns the index of a key and true, or false where it isn't there, as one of another size never is, in
// O(log n) comparisons.
func (s Set) Position(key []byte) (int, bool) {
	if len(key) != s.Size() {
		return 0, false
	}
	if len(key) == 0 {
		return 0, s.Len() > 0
	}
	place := callSetPosition(s.Bytes(), key)
	if place.status != statusOK {
		return 0, false
	}
	return place.index, true
}

// Contains tells whether a key is there.
func (s Set) Contains(key []byte) bool {
	_, isThere := s.Position(key)
	return isThere
}
