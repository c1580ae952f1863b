package commonware_test

import (
	"bytes"
	"errors"
	"fmt"

	"commonware.example/commonware/v2"
)

// What the examples build is right, so that their errors are left out where they say nothing.

func certificate(decision string, signers ...uint32) []byte {
	value, _ := commonware.SlotValue([]byte("view 7"), []byte(decision))
	encoded, _ := commonware.EncodeCertificate(value, signers)
	return encoded
}

func Example() {
	committee, err := commonware.NewCommitteeDedup([]commonware.Member{{7}, {1}, {3}, {5}})
	if err != nil {
		panic(err)
	}
	index, isThere := committee.Position(commonware.Member{7})
	quorum, _ := committee.Quorum(commonware.N3F1)
	fmt.Println(index, isThere, quorum)
	first, second := certificate("A", 0, 1, 2), certificate("B", 1, 2, 3)
	fmt.Println(commonware.Equivocation(commonware.N3F1, 4, first, second))
	// Output:
	// 3 true 3
	// [1 2] <nil>
}

func ExampleVersion() {
	fmt.Println(commonware.Version())
	// Output: 2 0 0
}

func ExampleFaultModel_MaxFaults() {
	fmt.Println(commonware.N3F1.MaxFaults(100))
	fmt.Println(commonware.FaultModel(7).MaxFaults(20))
	fmt.Println(commonware.N3F1.MaxFaults(0))
	// Output:
	// 33 <nil>
	// 2 <nil>
	// 0 commonware: the committee has no members
}

func ExampleFaultModel_Quorum() {
	fmt.Println(commonware.N5F1.Quorum(100))
	// Output: 81 <nil>
}

func ExampleFaultModel_SmallerQuorum() {
	fmt.Println(commonware.N5F1.SmallerQuorum(10))
	// Output: 3 <nil>
}

func ExampleReadCommittee() {
	input := append(append([]byte{1}, bytes.Repeat([]byte{9}, 32)...), "more"...)
	committee, rest, err := commonware.ReadCommittee(input, 1, 256)
	fmt.Printf("%d %q %v\n", committee.Len(), rest, err)
	_, _, err = commonware.ReadCommittee(input, 2, 256)
	fmt.Println(err)
	// Output:
	// 1 "more" <nil>
	// commonware: length 1 is out of range
}

func ExampleDecodeSet() {
	// Two keys of 20 bytes, as Ethereum's addresses have.
	first, second := bytes.Repeat([]byte{0xaa}, 20), bytes.Repeat([]byte{0xbb}, 20)
	addresses, err := commonware.DecodeSet(20, append(append([]byte{2}, first...), second...))
	index, isThere := addresses.Position(second)
	fmt.Println(addresses.Len(), index, isThere, addresses.Contains([]byte("short")), err)
	_, err = commonware.DecodeSet(1, []byte{2, 7, 7})
	fmt.Println(errors.Is(err, commonware.ErrNotStrict))
	// Output:
	// 2 1 true false <nil>
	// true
}

func ExampleReadSet() {
	set, rest, err := commonware.ReadSet(2, []byte("\x02amokmore"), 1, commonware.NoLimit)
	fmt.Printf("%q %q %v\n", set.Keys(), rest, err)
	// Output: ["am" "ok"] "more" <nil>
}

func ExampleEncodeSetDedup() {
	encoded, err := commonware.EncodeSetDedup(2, []byte("okamok"))
	fmt.Printf("%q %v\n", encoded, err)
	_, err = commonware.EncodeSetDedup(2, []byte("oka"))
	fmt.Println(err)
	// Output:
	// "\x02amok" <nil>
	// commonware: 1 bytes after the last whole item
}

func ExampleMap() {
	// From two keys of 48 bytes, as keys of BLS12-381 in G1 have, to weights of a byte.
	key := bytes.Repeat([]byte{0xb0}, 48)
	input := append(append([]byte{1}, key...), 1, 40)
	weights, err := commonware.DecodeMap(48, 1, input)
	if err != nil {
		panic(err)
	}
	fmt.Println(weights.Get(key))
	fmt.Println(weights.Get([]byte("another")))
	// Output:
	// [40] true
	// [] false
}

func ExampleEncodeMap() {
	encoded, _ := commonware.EncodeMap(1, 2, []byte("bc2ac1"))
	fmt.Printf("%q\n", encoded)
	_, err := commonware.EncodeMap(1, 2, []byte("bc2ac1bc3"))
	var repeated commonware.RepeatedKeyError
	fmt.Println(errors.As(err, &repeated), repeated.Index)
	// Output:
	// "\x02ab\x02c1c2"
	// true 2
}

func ExampleBiMap() {
	members, err := commonware.DecodeBiMap(1, 2, []byte("\x02ab\x02idme"))
	key, isThere := members.GetKey([]byte("me"))
	fmt.Printf("%q %v %v\n", key, isThere, err)
	_, err = commonware.DecodeBiMap(1, 2, []byte("\x03abc\x03idmeid"))
	fmt.Println(err)
	// Output:
	// "b" true <nil>
	// commonware: pairs 0 and 2 have the same value
}

func ExampleCertificate() {
	encoded, err := commonware.EncodeCertificate([]byte("x"), []uint32{4, 200})
	fmt.Printf("%q %v\n", encoded, err)
	_, err = commonware.EncodeCertificate([]byte("x"), []uint32{4, 4})
	fmt.Println(err)
	decoded, err := commonware.DecodeCertificate(encoded)
	fmt.Printf("%q %d %v\n", decoded.Value, decoded.Signers, err)
	// Output:
	// "\x01x\x02\x04\xc8\x01" <nil>
	// commonware: signer 1 isn't greater than the one before it
	// "x" [4 200] <nil>
}

func ExampleCheck() {
	checked, err := commonware.Check(commonware.N3F1, 4, certificate("A", 0, 1, 2))
	fmt.Printf("%q %q %d %v\n", checked.Slot, checked.Decision, checked.Signers, err)
	_, err = commonware.Check(commonware.N3F1, 5, certificate("A", 0, 1, 2))
	fmt.Println(err)
	// Output:
	// "view 7" "A" 3 <nil>
	// commonware: fewer signers than a quorum
}

func ExampleConflict() {
	both, err := commonware.Conflict(commonware.N3F1, 4, certificate("A", 0, 1, 2), certificate("B", 1, 2, 3))
	fmt.Println(both, err)
	_, err = commonware.Conflict(commonware.N3F1, 4, certificate("A", 0, 1, 2), certificate("B", 2, 3))
	var about commonware.CertificateError
	fmt.Println(errors.Is(err, commonware.ErrTooFew), errors.As(err, &about), about.Which)
	// Output:
	// [1 2] <nil>
	// true true 2
}

func ExampleFaultModel_WeightsQuorum() {
	numbers, err := commonware.N3F1.WeightsQuorum([]uint64{40, 30, 20, 10})
	fmt.Println(numbers.Total, numbers.MaxFaultyWeight, numbers.QuorumWeight, err)
	_, err = commonware.N3F1.WeightsQuorum([]uint64{40, 0, 20, 10})
	fmt.Println(err)
	// Output:
	// 100 33 67 <nil>
	// commonware: weight 1 is 0
}

func ExampleFaultModel_WeightsQuorum_stakes() {
	// Stakes by key, which come in any order. Weights are in the order of the members.
	stakes := map[commonware.Member]uint64{{7}: 10, {1}: 40, {5}: 20, {3}: 30}
	var keys []commonware.Member
	for key := range stakes {
		keys = append(keys, key)
	}
	committee, err := commonware.NewCommitteeDedup(keys)
	if err != nil {
		panic(err)
	}
	var weights []uint64
	for _, member := range committee.Members() {
		weights = append(weights, stakes[member])
	}
	numbers, err := commonware.N3F1.WeightsQuorum(weights)
	fmt.Println(weights, numbers.QuorumWeight, err)
	// Output: [40 30 20 10] 67 <nil>
}

func ExampleWeightedCheck() {
	weights := []uint64{40, 30, 20, 10}
	checked, err := commonware.WeightedCheck(commonware.N3F1, weights, certificate("A", 0, 1))
	fmt.Printf("%q %q %d %v\n", checked.Slot, checked.Decision, checked.Weight, err)
	_, err = commonware.WeightedCheck(commonware.N3F1, weights, certificate("A", 1, 2, 3))
	fmt.Println(err)
	// Output:
	// "view 7" "A" 70 <nil>
	// commonware: the signers weigh less than a quorum
}

func ExampleWeightedEquivocation() {
	weights := []uint64{40, 30, 20, 10}
	first, second := certificate("A", 0, 1), certificate("B", 0, 2, 3)
	named, err := commonware.WeightedEquivocation(commonware.N3F1, weights, first, second)
	fmt.Println(named.Members, named.Weight, err)
	_, err = commonware.WeightedEquivocation(commonware.N3F1, weights, first, certificate("B", 1, 2, 3))
	fmt.Println(err)
	// Output:
	// [0] 40 <nil>
	// certificate 2: commonware: the signers weigh less than a quorum
}
