//go:build cgo

package commonware

import (
	"bytes"
	"sort"
)

// A Map is the pairs of a map, whose keys are strictly increasing, where its encoding has them. Keys have one size and
// values another; every number from 0 on is a size. The zero value is a map without pairs, of size 0.
type Map struct {
	keys   Set
	values items
}

// mapAt returns the pairs of an input, which are at these places.
func mapAt(keySize, valueSize, count int, input []byte, keys, values int) Map {
	return Map{
		keys:   Set{itemsAt(keySize, count, input, keys)},
		values: itemsAt(valueSize, count, input, values),
	}
}

// ReadMap decodes the map of least to most pairs, of keys of keySize bytes and values of valueSize, at the start of the
// input, and returns it with what follows. Else the error is the first fault (decoding error), that of the keys and
// then that of the values, of which there are as many: [ErrEndOfInput], [ErrInvalidVarint], [InvalidLengthError] or
// [ErrNotStrict]; or [ErrNegative].
func ReadMap(keySize, valueSize int, input []byte, least, most int) (Map, []byte, error) {
	if areNegative(keySize, valueSize, least, most) {
		return Map{}, nil, ErrNegative
	}
	view := callMapRead(keySize, valueSize, input, least, most)
	if err := errorOf(view.status, view.number); err != nil {
		return Map{}, nil, err
	}
	pairs := mapAt(keySize, valueSize, int(view.count), input, view.keys, view.values)
	return pairs, rest(input, view.left), nil
}

// DecodeMap decodes the map that the whole input is, of any number of pairs. The errors are those of [ReadMap], and
// [LeftOverError].
func DecodeMap(keySize, valueSize int, input []byte) (Map, error) {
	pairs, rest, err := ReadMap(keySize, valueSize, input, 0, NoLimit)
	if err := whole(rest, err); err != nil {
		return Map{}, err
	}
	return pairs, nil
}

// EncodeMapDedup encodes the map of these pairs in the order of their keys: each is a key of keySize bytes and then its
// value of valueSize, one pair after another. They may come in any order. Of pairs with equal keys the first is
// written. The errors are [ErrNoSize] where keySize is 0, [NotWholeError], [InvalidLengthError] where the keys are more
// than 4294967295, [ErrNegative] and [ErrOutOfMemory].
func EncodeMapDedup(keySize, valueSize int, pairs []byte) ([]byte, error) {
	if areNegative(keySize, valueSize) {
		return nil, ErrNegative
	}
	room := make([]byte, 10+len(pairs))
	return written(callMapEncodeDedup(keySize, valueSize, pairs, room), room)
}

// EncodeMap encodes the map of these pairs as [EncodeMapDedup] does, where no key repeats. The errors are
// [RepeatedKeyError], with the index of the first pair whose key an earlier pair has, and those of EncodeMapDedup.
func EncodeMap(keySize, valueSize int, pairs []byte) ([]byte, error) {
	if areNegative(keySize, valueSize) {
		return nil, ErrNegative
	}
	room := make([]byte, 10+len(pairs))
	return written(callMapEncode(keySize, valueSize, pairs, room), room)
}

// Len returns how many pairs there are.
func (m Map) Len() int {
	return m.keys.Len()
}

// Keys returns the keys, which are a set.
func (m Map) Keys() Set {
	return m.keys
}

// ValueSize returns how many bytes a value has. A key has as many as the size of the keys.
func (m Map) ValueSize() int {
	return m.values.size
}

// Key returns the key at an index. It panics where there is none, as a slice does.
func (m Map) Key(index int) []byte {
	return m.keys.Key(index)
}

// Value returns the value of the key at an index. It panics where there is none, as a slice does.
func (m Map) Value(index int) []byte {
	return m.values.at(index)
}

// Values returns all values in the order of their keys.
func (m Map) Values() [][]byte {
	return m.values.all()
}

// Get returns the value of a key and true, or false where the key isn't there, as one of another size never is, in
// O(log n) comparisons.
func (m Map) Get(key []byte) ([]byte, bool) {
	index, isThere := m.keys.Position(key)
	if !isThere {
		return nil, false
	}
	return m.Value(index), true
}

// A BiMap is a map whose values all differ. It has the indices of the pairs in the order of their values, so that a key
// is found by its value too. [EncodeMap] writes it. The zero value is a bimap without pairs, of size 0.
type BiMap struct {
	// No caller may replace the pairs, of which byValue has the order.
	pairs   Map
	byValue []uint32
}

// ReadBiMap decodes the bimap of least to most pairs, of keys of keySize bytes and values of valueSize, at the start of
// the input, and returns it with what follows. It takes O(n log n) comparisons, and memory for an index of each pair.
// The errors are those of [ReadMap], and else [RepeatedValueError].
func ReadBiMap(keySize, valueSize int, input []byte, least, most int) (BiMap, []byte, error) {
	if areNegative(keySize, valueSize, least, most) {
		return BiMap{}, nil, ErrNegative
	}
	// The first call tells how many indices it takes.
	var byValue []uint32
	view := callBimapRead(keySize, valueSize, input, least, most, nil)
	if view.status == statusRoom {
		byValue = make([]uint32, view.number)
		view = callBimapRead(keySize, valueSize, input, least, most, byValue)
	}
	if view.status == statusRepeatedValue {
		return BiMap{}, nil, RepeatedValueError{First: view.first, Second: view.second}
	}
	if err := errorOf(view.status, view.number); err != nil {
		return BiMap{}, nil, err
	}
	pairs := mapAt(keySize, valueSize, int(view.count), input, view.keys, view.values)
	return BiMap{pairs, byValue}, rest(input, view.left), nil
}

// DecodeBiMap decodes the bimap that the whole input is, of any number of pairs. The errors are those of [ReadBiMap],
// and [LeftOverError].
func DecodeBiMap(keySize, valueSize int, input []byte) (BiMap, error) {
	pairs, rest, err := ReadBiMap(keySize, valueSize, input, 0, NoLimit)
	if err := whole(rest, err); err != nil {
		return BiMap{}, err
	}
	return pairs, nil
}

// AsMap returns the pairs as a map.
func (m BiMap) AsMap() Map {
	return m.pairs
}

// Len returns how many pairs there are.
func (m BiMap) Len() int {
	return m.pairs.Len()
}

// Keys returns the keys, which are a set.
func (m BiMap) Keys() Set {
	return m.pairs.Keys()
}

// ValueSize returns how many bytes a value has. A key has as many as the size of the keys.
func (m BiMap) ValueSize() int {
	return m.pairs.ValueSize()
}

// Key returns the key at an index. It panics where there is none, as a slice does.
func (m BiMap) Key(index int) []byte {
	return m.pairs.Key(index)
}

// Value returns the value of the key at an index. It panics where there is none, as a slice does.
func (m BiMap) Value(index int) []byte {
	return m.pairs.Value(index)
}

// Values returns all values in the order of their keys.
func (m BiMap) Values() [][]byte {
	return m.pairs.Values()
}

// Get returns the value of a key and true, or false where the key isn't there, as one of another size never is, in
// O(log n) comparisons.
func (m BiMap) Get(key []byte) ([]byte, bool) {
	return m.pairs.Get(key)
}

// PositionOfValue returns the index of the pair with a value and true, or false where there is none, in O(log n)
// comparisons.
func (m BiMap) PositionOfValue(value []byte) (int, bool) {
	at := sort.Search(len(m.byValue), func(i int) bool {
		return bytes.Compare(m.Value(int(m.byValue[i])), value) >= 0
	})
	if at == len(m.byValue) || !bytes.Equal(m.Value(int(m.byValue[at])), value) {
		return 0, false
	}
	return int(m.byValue[at]), true
}

// GetKey returns the key of a value and true, or false where the value isn't there, in O(log n) comparisons.
func (m BiMap) GetKey(value []byte) ([]byte, bool) {
	index, isThere := m.PositionOfValue(value)
	if !isThere {
		return nil, false
	}
	return m.Key(index), true
}
