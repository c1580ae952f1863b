package commonware_test

import (
	"bytes"
	"errors"
	"sort"

	. "commonware.example/commonware/v2"
)

// The encodings and the results once more, in plain Go and item by item: what the package is compared with. It is
// written from docs/FORMAT.md.

func varint(number uint64) []byte {
	var groups []byte
	for number > 127 {
		groups = append(groups, byte(number%128+128))
		number /= 128
	}
	return append(groups, byte(number))
}

func plainVarint(input []byte) (int, []byte, error) {
	number := uint64(0)
	for i := 0; i < 5; i++ {
		if i >= len(input) {
			return 0, nil, ErrEndOfInput
		}
		number += uint64(input[i]%128) << (7 * i)
		if input[i] < 128 {
			if input[i] == 0 && i > 0 || number >= 1<<32 {
				return 0, nil, ErrInvalidVarint
			}
			return int(number), input[i+1:], nil
		}
	}
	return 0, nil, ErrInvalidVarint
}

func plainLength(input []byte, least, most int) (int, []byte, error) {
	length, rest, err := plainVarint(input)
	if err == nil && (length < least || length > most) {
		err = InvalidLengthError{Length: length}
	}
	return length, rest, err
}

func plainItems(size, count int, input []byte) (items [][]byte, rest []byte, err error) {
	for i := 0; i < count; i++ {
		if size > len(input) {
			return nil, nil, ErrEndOfInput
		}
		items = append(items, input[:size])
		input = input[size:]
	}
	return items, input, nil
}

func plainSet(size int, input []byte, least, most int) (keys [][]byte, rest []byte, err error) {
	count, rest, err := plainLength(input, least, most)
	if err != nil {
		return nil, nil, err
	}
	if size == 0 && count > 2 {
		// Of keys of no bytes the first two are equal.
		count = 2
	}
	keys, rest, err = plainItems(size, count, rest)
	for i := 1; err == nil && i < len(keys); i++ {
		if bytes.Compare(keys[i-1], keys[i]) >= 0 {
			return nil, nil, ErrNotStrict
		}
	}
	return keys, rest, err
}

func plainMap(sizes [2]int, input []byte, least, most int) (keys, values [][]byte, rest []byte, err error) {
	keys, rest, err = plainSet(sizes[0], input, least, most)
	if err != nil {
		return nil, nil, nil, err
	}
	count, rest, err := plainLength(rest, len(keys), len(keys))
	if err != nil {
		return nil, nil, nil, err
	}
	values, rest, err = plainItems(sizes[1], count, rest)
	return keys, values, rest, err
}

func plainBiMap(sizes [2]int, input []byte, least, most int) (keys, values [][]byte, rest []byte, err error) {
	keys, values, rest, err = plainMap(sizes, input, least, most)
	seen := map[string]int{}
	for index, value := range values {
		if first, isThere := seen[string(value)]; isThere {
			return nil, nil, nil, RepeatedValueError{First: first, Second: index}
		}
		seen[string(value)] = index
	}
	return keys, values, rest, err
}

func listBytes(items [][]byte) []byte {
	return append(varint(uint64(len(items))), bytes.Join(items, nil)...)
}

func plainWhole(size int, input []byte) ([][]byte, error) {
	if size == 0 {
		return nil, ErrNoSize
	}
	if over := len(input) % size; over > 0 {
		return nil, NotWholeError{Count: over}
	}
	items, _, err := plainItems(size, len(input)/size, input)
	return items, err
}

func plainWriteSet(size int, input []byte) ([]byte, error) {
	items, err := plainWhole(size, input)
	if err != nil {
		return nil, err
	}
	distinct := map[string]bool{}
	for _, item := range items {
		distinct[string(item)] = true
	}
	var keys [][]byte
	for key := range distinct {
		keys = append(keys, []byte(key))
	}
	sort.Slice(keys, func(i, j int) bool { return bytes.Compare(keys[i], keys[j]) < 0 })
	return listBytes(keys), nil
}

func plainWriteMap(keySize, valueSize int, input []byte, isUnique bool) ([]byte, error) {
	if keySize == 0 {
		return nil, ErrNoSize
	}
	pairs, err := plainWhole(keySize+valueSize, input)
	if err != nil {
		return nil, err
	}
	first := map[string][]byte{}
	var keys, values [][]byte
	for index, pair := range pairs {
		key := string(pair[:keySize])
		if _, isThere := first[key]; !isThere {
			first[key] = pair[keySize:]
			keys = append(keys, []byte(key))
		} else if isUnique {
			return nil, RepeatedKeyError{Index: index}
		}
	}
	sort.Slice(keys, func(i, j int) bool { return bytes.Compare(keys[i], keys[j]) < 0 })
	for _, key := range keys {
		values = append(values, first[string(key)])
	}
	return append(listBytes(keys), listBytes(values)...), nil
}

func certificateBytes(value []byte, signers []uint32) []byte {
	written := append(varint(uint64(len(value))), value...)
	written = append(written, varint(uint64(len(signers)))...)
	for _, signer := range signers {
		written = append(written, varint(uint64(signer))...)
	}
	return written
}

func plainWriteCertificate(value []byte, signers []uint32) ([]byte, error) {
	for index := 1; index < len(signers); index++ {
		if signers[index-1] >= signers[index] {
			return nil, NotStrictError{Index: index}
		}
	}
	return certificateBytes(value, signers), nil
}

func plainCertificate(input []byte, mostBytes, mostSigners int) (value []byte, signers []uint32, rest []byte, err error) {
	length, rest, err := plainLength(input, 0, mostBytes)
	if err != nil {
		return nil, nil, nil, err
	}
	if length > len(rest) {
		return nil, nil, nil, ErrEndOfInput
	}
	value, rest = rest[:length], rest[length:]
	count, rest, err := plainLength(rest, 0, mostSigners)
	for i := 0; err == nil && i < count; i++ {
		var signer int
		signer, rest, err = plainVarint(rest)
		signers = append(signers, uint32(signer))
	}
	if err != nil {
		return nil, nil, nil, err
	}
	for i := 1; i < len(signers); i++ {
		if signers[i-1] >= signers[i] {
			return nil, nil, nil, ErrNotStrict
		}
	}
	return value, signers, rest, nil
}

func plainSlot(value []byte) (slot, decision []byte, isThere bool) {
	length, rest, err := plainVarint(value)
	if err != nil || length > len(rest) {
		return nil, nil, false
	}
	return rest[:length], rest[length:], true
}

func plainMaxFaults(k, n uint32) (uint32, error) {
	if k < 2 {
		return 0, ErrNoModel
	}
	if n == 0 {
		return 0, ErrNoMembers
	}
	faults := uint64(n / k)
	for uint64(k)*faults+1 > uint64(n) {
		faults--
	}
	return uint32(faults), nil
}

// of returns an error that is about a certificate, where there is one.
func of(which int, err error) error {
	if err == nil || which == 0 {
		return err
	}
	return CertificateError{Which: which, Err: err}
}

func theCertificate(input []byte) (value []byte, signers []uint32, err error) {
	value, signers, rest, err := plainCertificate(input, NoLimit, NoLimit)
	if err == nil && len(rest) > 0 {
		err = LeftOverError{Count: len(rest)}
	}
	return value, signers, err
}

func areMembers(members uint32, signers []uint32) error {
	for _, signer := range signers {
		if signer >= members {
			return ErrOutside
		}
	}
	return nil
}

func areEnough(k, members uint32, signers []uint32) error {
	faults, _ := plainMaxFaults(k, members)
	if uint32(len(signers)) < members-faults {
		return ErrTooFew
	}
	return nil
}

func plainCheck(k, members uint32, input []byte) (Checked, error) {
	if _, err := plainMaxFaults(k, members); err != nil {
		return Checked{}, err
	}
	value, signers, err := theCertificate(input)
	if err == nil {
		err = areMembers(members, signers)
	}
	if err == nil {
		err = areEnough(k, members, signers)
	}
	if err != nil {
		return Checked{}, err
	}
	slot, decision, hasSlot := plainSlot(value)
	return Checked{value, hasSlot, slot, decision, uint32(len(signers))}, nil
}

func plainBoth(k, members uint32, first, second []byte, isOneSlot bool) ([]uint32, error) {
	if _, err := plainMaxFaults(k, members); err != nil {
		return nil, err
	}
	value, signers, err := theCertificate(first)
	if err != nil {
		return nil, of(1, err)
	}
	other, others, err := theCertificate(second)
	if err != nil {
		return nil, of(2, err)
	}
	if isOneSlot {
		slot, _, isThere := plainSlot(value)
		if !isThere {
			return nil, of(1, ErrNoSlot)
		}
		otherSlot, _, isThere := plainSlot(other)
		if !isThere {
			return nil, of(2, ErrNoSlot)
		}
		if !bytes.Equal(slot, otherSlot) {
			return nil, ErrOtherSlot
		}
	}
	if bytes.Equal(value, other) {
		return nil, ErrSameValue
	}
	for _, err := range []error{
		of(1, areMembers(members, signers)), of(2, areMembers(members, others)),
		of(1, areEnough(k, members, signers)), of(2, areEnough(k, members, others)),
	} {
		if err != nil {
			return nil, err
		}
	}
	both := []uint32{}
	for _, signer := range signers {
		for _, other := range others {
			if signer == other {
				both = append(both, signer)
			}
		}
	}
	return both, nil
}

// name returns the name of an error without its numbers.
func name(err error) string {
	var about CertificateError
	if errors.As(err, &about) {
		err = about.Err
	}
	switch err.(type) {
	case nil:
		return "ok"
	case InvalidLengthError:
		return "length"
	case LeftOverError:
		return "left over"
	case NotStrictError:
		return "signer"
	case NotWholeError:
		return "not whole"
	case RepeatedKeyError:
		return "key"
	case RepeatedValueError:
		return "value"
	}
	return err.Error()
}
