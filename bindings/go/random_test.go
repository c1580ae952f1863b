package commonware_test

import (
	"bytes"
	"fmt"
	"math"
	"math/rand"
	"os"
	"reflect"
	"sort"
	"strconv"
	"testing"

	. "commonware.example/commonware/v2"
)

// cases returns how many random cases each group of calls is tried with.
func cases(t *testing.T) int {
	said := os.Getenv("COMMONWARE_CASES")
	if said == "" {
		return 100_000
	}
	number, err := strconv.Atoi(said)
	if err != nil {
		t.Fatal(err)
	}
	return number
}

// seen is how often each kind of outcome was seen.
type seen map[string]int

func (s seen) assertEach(t *testing.T, outcomes, least int) {
	t.Helper()
	if len(s) != outcomes {
		t.Errorf("%d outcomes: %v", len(s), s)
	}
	for _, count := range s {
		if count < least {
			t.Errorf("seldom: %v", s)
		}
	}
}

// same requires that two results are the same; what says of which case.
func same(t *testing.T, got, want interface{}, what ...interface{}) {
	t.Helper()
	if !reflect.DeepEqual(got, want) {
		t.Fatalf("%v is not %v in the case %s", got, want, fmt.Sprint(what...))
	}
}

// draw draws random inputs, the same in each run.
type draw struct {
	*rand.Rand
}

func drawing(seed int64) draw {
	return draw{rand.New(rand.NewSource(seed))}
}

func (d draw) of(numbers ...int) int {
	return numbers[d.Intn(len(numbers))]
}

// size returns a size in use or from 0 to 20.
func (d draw) size() int {
	if at := d.Intn(30); at <= 20 {
		return at
	}
	return d.of(32, 33, 48, 96)
}

// anySize returns a size that is seldom a large one, of which few items have 2^64 bytes or more.
func (d draw) anySize() int {
	switch d.Intn(30) {
	case 0:
		return math.MaxInt/d.of(1, 2, 3, 255, 256) + d.Intn(2) - 1
	case 1:
		return 1<<d.of(60, 61, 62) + d.Intn(34)
	}
	return d.size()
}

func (d draw) bytes(length int) []byte {
	drawn := make([]byte, length)
	d.Read(drawn)
	return drawn
}

// keys returns keys that differ in a byte about the ends of words, or nowhere.
func (d draw) keys(size int) [][]byte {
	keys := make([][]byte, d.Intn(9))
	for i := range keys {
		keys[i] = bytes.Repeat([]byte{0x5a}, size)
		for change := d.Intn(3); change > 0 && size > 0; change-- {
			at := d.of(0, 7, 8, 15, 16, 23, 24, 31, 47, 95, d.Intn(size))
			if at >= size {
				at = size - 1
			}
			keys[i][at] = byte(d.of(0, 1, 0x59, 0x5b, 127, 128, 255))
		}
	}
	return keys
}

func sorted(keys [][]byte) [][]byte {
	sort.Slice(keys, func(i, j int) bool { return bytes.Compare(keys[i], keys[j]) < 0 })
	return keys
}

func distinct(keys [][]byte) [][]byte {
	var kept [][]byte
	for _, key := range sorted(keys) {
		if len(kept) == 0 || !bytes.Equal(kept[len(kept)-1], key) {
			kept = append(kept, key)
		}
	}
	return kept
}

// set returns keys that are nearly always in order and each once.
func (d draw) set(size int) [][]byte {
	keys := d.keys(size)
	switch d.Intn(8) {
	case 0:
		return keys
	case 1:
		return sorted(keys)
	case 2:
		keys = distinct(keys)
		d.Shuffle(len(keys), func(i, j int) { keys[i], keys[j] = keys[j], keys[i] })
		return keys
	}
	return distinct(keys)
}

// spoiled returns bytes that are wrong in one of several ways, or as they are.
func (d draw) spoiled(input []byte) []byte {
	input = append([]byte{}, input...)
	at := d.Intn(len(input))
	switch d.Intn(12) {
	case 0:
		return input[:at]
	case 1:
		return append(input, d.bytes(d.Intn(40))...)
	case 2:
		input[at] = byte(d.Intn(256))
	case 3:
		if input[0] < 128 {
			return append([]byte{input[0] | 128, 0}, input[1:]...)
		}
	case 4:
		return append(varint(d.Uint64()>>d.Intn(64)), input[1:]...)
	}
	return input
}

func (d draw) limits() (least, most int) {
	switch d.Intn(4) {
	case 0:
		return d.Intn(9), d.Intn(9)
	case 1:
		return 0, 8
	}
	return 0, NoLimit
}

// value returns a value, which often is a decision for a slot.
func (d draw) value() []byte {
	if d.Intn(3) == 0 {
		return bytes.Repeat([]byte{byte(d.Intn(3))}, d.Intn(4))
	}
	value := make([]byte, 1+d.Intn(3))
	for i := range value {
		value[i] = byte(d.Intn(2))
	}
	return value
}

// signers returns signers that are nearly always in order, members and a quorum.
func (d draw) signers(members int) []uint32 {
	signers, keep := []uint32{}, d.Intn(4)
	for i := 0; i < members; i++ {
		if d.Intn(9) >= keep {
			signers = append(signers, uint32(i))
		}
	}
	switch d.Intn(40) {
	case 0:
		signers = append(signers, uint32(members+d.Intn(200)))
	case 1:
		signers = append(signers, 0)
	case 2:
		sort.Slice(signers, func(i, j int) bool { return signers[i] > signers[j] })
	case 3:
		signers = append(signers, d.Uint32())
	}
	return signers
}

func text(items [][]byte) string {
	return fmt.Sprintf("%d %x", len(items), items)
}

func TestSetsAreRead(t *testing.T) {
	d, counts := drawing(1), seen{}
	for i := 0; i < cases(t); i++ {
		size := d.size()
		input := d.spoiled(listBytes(d.set(size)))
		if d.Intn(8) == 0 {
			size = d.anySize()
		}
		least, most := d.limits()
		keys, left, wanted := plainSet(size, input, least, most)
		set, rest, err := ReadSet(size, input, least, most)
		counts[name(err)]++
		same(t, err, wanted, size, input, least, most)
		if err != nil {
			continue
		}
		same(t, text(set.Keys()), text(keys), size, input)
		same(t, []int{len(rest), set.Len(), set.Size()}, []int{len(left), len(keys), size}, size, input)
		same(t, bytes.Equal(set.Bytes(), bytes.Join(keys, nil)) && bytes.Equal(rest, left), true, size, input)
		same(t, cap(set.Bytes()), len(set.Bytes()))
		whole, err := DecodeSet(size, input)
		if len(left) > 0 {
			same(t, err, LeftOverError{Count: len(left)}, size, input)
		} else {
			same(t, whole, set, size, input)
		}
	}
	counts.assertEach(t, 5, cases(t)/100)
}

func TestCommitteesAreReadAndWritten(t *testing.T) {
	d, counts := drawing(2), seen{}
	for i := 0; i < cases(t); i++ {
		keys := d.set(32)
		input := d.spoiled(listBytes(keys))
		least, most := d.limits()
		read, left, wanted := plainSet(32, input, least, most)
		committee, rest, err := ReadCommittee(input, least, most)
		counts[name(err)]++
		same(t, err, wanted, input, least, most)
		if err == nil {
			same(t, []int{len(rest), committee.Len()}, []int{len(left), len(read)}, input)
			for index, member := range committee.Members() {
				same(t, member[:], read[index], input)
				same(t, committee.Member(index), member, input)
				at, isThere := committee.Position(member)
				same(t, isThere && at == index && committee.Contains(member), true, input)
			}
			same(t, committee.Contains(Member{0: 9}), false)
		}
		var members []Member
		for _, key := range keys {
			members = append(members, *(*Member)(key))
		}
		written, err := EncodeCommitteeDedup(members)
		plain, _ := plainWriteSet(32, bytes.Join(keys, nil))
		same(t, err, nil)
		same(t, written, plain, keys)
	}
	counts.assertEach(t, 5, cases(t)/100)
}

func TestKeysAreFound(t *testing.T) {
	d, counts := drawing(3), seen{}
	for i := 0; i < cases(t)/4; i++ {
		size := d.size()
		keys := distinct(append(d.keys(size), d.keys(size)...))
		set, err := DecodeSet(size, listBytes(keys))
		same(t, err, nil)
		for _, key := range append(append(d.keys(size), keys...), []byte("other")) {
			wanted, found := 0, false
			for at := range keys {
				if bytes.Equal(keys[at], key) {
					wanted, found = at, true
				}
			}
			at, isThere := set.Position(key)
			same(t, []interface{}{at, isThere, set.Contains(key)}, []interface{}{wanted, found, found}, keys, key)
			counts[fmt.Sprint(found)]++
		}
	}
	counts.assertEach(t, 2, cases(t)/4)
}

// aMap returns the sizes and the bytes of a map that is nearly right.
func (d draw) aMap() ([2]int, []byte) {
	sizes := [2]int{d.size(), d.Intn(10)}
	keys := d.set(sizes[0])
	values := make([][]byte, len(keys))
	for i := range values {
		values[i] = bytes.Repeat([]byte{byte(d.Intn(3))}, sizes[1])
	}
	if d.Intn(3) > 0 && sizes[1] > 0 {
		for i, at := range d.Perm(len(values)) {
			values[i][0] = byte(at)
		}
	}
	before, after := listBytes(keys), d.spoiled(listBytes(values))
	if d.Intn(24) == 0 {
		after = append(varint(uint64(d.Intn(9))), after...)
	}
	if d.Intn(3) == 0 {
		before = d.spoiled(before)
	}
	switch d.Intn(16) {
	case 0:
		sizes[0] = d.anySize()
	case 1:
		sizes[1] = d.anySize()
	}
	return sizes, append(before, after...)
}

func isMap(t *testing.T, pairs Map, keys, values [][]byte, sizes [2]int, others [][]byte) {
	t.Helper()
	same(t, text(pairs.Keys().Keys())+text(pairs.Values()), text(keys)+text(values), sizes)
	same(t, [...]int{pairs.Len(), pairs.Keys().Size(), pairs.ValueSize()}, [...]int{len(keys), sizes[0], sizes[1]})
	for index, key := range keys {
		value, isThere := pairs.Get(key)
		same(t, isThere && bytes.Equal(value, values[index]), true, keys, key)
		same(t, bytes.Equal(pairs.Key(index), key) && bytes.Equal(pairs.Value(index), value), true, keys, key)
	}
	for _, other := range others {
		_, isThere := pairs.Get(other)
		same(t, isThere, pairs.Keys().Contains(other), keys, other)
	}
}

func TestMapsAreRead(t *testing.T) {
	d, counts := drawing(4), seen{}
	for i := 0; i < cases(t); i++ {
		sizes, input := d.aMap()
		least, most := d.limits()
		keys, values, left, wanted := plainMap(sizes, input, least, most)
		pairs, rest, err := ReadMap(sizes[0], sizes[1], input, least, most)
		counts[name(err)]++
		same(t, err, wanted, sizes, input, least, most)
		if err == nil {
			same(t, len(rest), len(left), sizes, input)
			isMap(t, pairs, keys, values, sizes, d.keys(d.size()))
		}
	}
	counts.assertEach(t, 5, cases(t)/200)
}

func TestBiMapsAreRead(t *testing.T) {
	d, counts := drawing(5), seen{}
	for i := 0; i < cases(t); i++ {
		sizes, input := d.aMap()
		least, most := d.limits()
		keys, values, left, wanted := plainBiMap(sizes, input, least, most)
		pairs, rest, err := ReadBiMap(sizes[0], sizes[1], input, least, most)
		counts[name(err)]++
		same(t, err, wanted, sizes, input, least, most)
		if err != nil {
			continue
		}
		same(t, len(rest), len(left), sizes, input)
		isMap(t, pairs.AsMap(), keys, values, sizes, d.keys(d.size()))
		for index, value := range values {
			at, isThere := pairs.PositionOfValue(value)
			key, _ := pairs.GetKey(value)
			same(t, isThere && at == index && bytes.Equal(key, keys[index]), true, sizes, input)
		}
		_, isThere := pairs.GetKey([]byte("another value"))
		same(t, isThere, false)
	}
	counts.assertEach(t, 6, cases(t)/200)
}

func TestSetsAndMapsAreWritten(t *testing.T) {
	d, counts := drawing(6), seen{}
	for i := 0; i < cases(t); i++ {
		keySize, valueSize := d.of(0, 1, 2, 3, 4, 5, 6, 7, 8, 20, 32, 33, 48, 96), d.Intn(5)
		var keys, pairs []byte
		for _, key := range d.keys(keySize) {
			keys = append(keys, key...)
			pairs = append(append(pairs, key...), d.bytes(valueSize)...)
		}
		over := d.bytes(d.of(0, 0, 0, 1, 3))
		keys, pairs = append(keys, over...), append(pairs, over...)
		got, err := EncodeSetDedup(keySize, keys)
		wanted, wantedErr := plainWriteSet(keySize, keys)
		same(t, err, wantedErr, keySize, keys)
		same(t, got, wanted, keySize, keys)
		got, err = EncodeMapDedup(keySize, valueSize, pairs)
		wanted, wantedErr = plainWriteMap(keySize, valueSize, pairs, false)
		same(t, err, wantedErr, keySize, valueSize, pairs)
		same(t, got, wanted, keySize, valueSize, pairs)
		got, err = EncodeMap(keySize, valueSize, pairs)
		wanted, wantedErr = plainWriteMap(keySize, valueSize, pairs, true)
		same(t, err, wantedErr, keySize, valueSize, pairs)
		same(t, got, wanted, keySize, valueSize, pairs)
		counts[name(err)]++
	}
	counts.assertEach(t, 4, cases(t)/100)
}

func TestCertificatesAreReadAndWritten(t *testing.T) {
	d, counts := drawing(7), seen{}
	for i := 0; i < cases(t); i++ {
		value, signers := d.value(), d.signers(1+d.Intn(8))
		input := d.spoiled(certificateBytes(value, signers))
		mostBytes, mostSigners := NoLimit, NoLimit
		switch d.Intn(3) {
		case 0:
			mostBytes = d.Intn(4)
		case 1:
			mostSigners = d.Intn(8)
		}
		read, indices, left, wanted := plainCertificate(input, mostBytes, mostSigners)
		certificate, rest, err := ReadCertificate(input, mostBytes, mostSigners)
		counts[name(err)]++
		same(t, err, wanted, input, mostBytes, mostSigners)
		if err == nil {
			same(t, certificate, Certificate{read, indices}, input)
			same(t, len(rest), len(left), input)
			slot, decision, isThere := certificate.Slot()
			wantedSlot, wantedDecision, wantedThere := plainSlot(read)
			same(t, isThere, wantedThere, read)
			same(t, bytes.Equal(slot, wantedSlot) && bytes.Equal(decision, wantedDecision), true, read)
		}
		written, err := EncodeCertificate(value, signers)
		plain, plainErr := plainWriteCertificate(value, signers)
		same(t, err, plainErr, signers)
		same(t, written, plain, value, signers)
	}
	counts.assertEach(t, 5, cases(t)/100)
}

func TestCertificatesAreChecked(t *testing.T) {
	d, counts := drawing(8), seen{}
	for i := 0; i < cases(t); i++ {
		k, members := uint32(1+d.Intn(7)), d.Intn(9)
		input := d.spoiled(certificateBytes(d.value(), d.signers(members)))
		wanted, wantedErr := plainCheck(k, uint32(members), input)
		got, err := Check(FaultModel(k), uint32(members), input)
		counts[name(err)]++
		same(t, err, wantedErr, k, members, input)
		same(t, got, wanted, k, members, input)
	}
	counts.assertEach(t, 9, cases(t)/200)
}

func TestConflictsAndEquivocationsAreNamed(t *testing.T) {
	for _, isOneSlot := range []bool{false, true} {
		d, counts := drawing(9), seen{}
		for i := 0; i < cases(t); i++ {
			k, members := uint32(d.of(1, 2, 3, 3, 3, 4, 5, 6, 7)), d.Intn(12)
			first := certificateBytes(d.value(), d.signers(members))
			second := certificateBytes(d.value(), d.signers(members))
			if d.Intn(4) == 0 {
				first = d.spoiled(first)
			}
			if d.Intn(4) == 0 {
				second = d.spoiled(second)
			}
			wanted, wantedErr := plainBoth(k, uint32(members), first, second, isOneSlot)
			call := Conflict
			if isOneSlot {
				call = Equivocation
			}
			got, err := call(FaultModel(k), uint32(members), first, second)
			counts[name(err)]++
			same(t, err, wantedErr, k, members, first, second)
			same(t, got, wanted, k, members, first, second)
		}
		if isOneSlot {
			counts.assertEach(t, 12, cases(t)/400)
		} else {
			counts.assertEach(t, 10, cases(t)/400)
		}
	}
}

func TestValuesOfSlotsAreWritten(t *testing.T) {
	d := drawing(11)
	for i := 0; i < cases(t); i++ {
		slot, decision := d.bytes(d.of(0, 1, 2, 127, 128, 300)), d.bytes(d.of(0, 1, 127, 300))
		value, err := SlotValue(slot, decision)
		same(t, err, nil)
		same(t, bytes.Equal(value, bytes.Join([][]byte{varint(uint64(len(slot))), slot, decision}, nil)), true, slot)
		gotSlot, gotDecision, isThere := SplitValue(value)
		same(t, isThere && bytes.Equal(gotSlot, slot) && bytes.Equal(gotDecision, decision), true, slot, decision)
	}
}

func TestNumbersOfFaults(t *testing.T) {
	d, counts := drawing(12), seen{}
	for i := 0; i < cases(t); i++ {
		k, n := d.Uint32()>>d.Intn(32), d.Uint32()>>d.Intn(33)
		wanted, wantedErr := plainMaxFaults(k, n)
		model := FaultModel(k)
		faults, err := model.MaxFaults(n)
		quorum, quorumErr := model.Quorum(n)
		smaller, smallerErr := model.SmallerQuorum(n)
		counts[name(err)]++
		same(t, []error{err, quorumErr, smallerErr}, []error{wantedErr, wantedErr, wantedErr}, k, n)
		if err == nil {
			same(t, []uint32{faults, quorum, smaller}, []uint32{wanted, n - wanted, 2*wanted + 1}, k, n)
		}
	}
	counts.assertEach(t, 3, cases(t)/200)
}
