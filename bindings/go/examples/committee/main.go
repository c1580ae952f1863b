// Prints the members of a committee, how many make a quorum, and which members signed two different values.
package main

import (
	"fmt"
	"log"

	"commonware.example/commonware/v2"
)

func run() error {
	var keys []commonware.Member
	for _, first := range []byte{3, 1, 0, 2} {
		var key commonware.Member
		for i := range key {
			key[i] = first
		}
		keys = append(keys, key)
	}
	committee, err := commonware.NewCommitteeDedup(keys)
	if err != nil {
		return err
	}
	for _, member := range committee.Members() {
		fmt.Printf("%x\n", member)
	}
	members := uint32(committee.Len())
	faults, err := committee.MaxFaults(commonware.N3F1)
	if err != nil {
		return err
	}
	quorum, err := committee.Quorum(commonware.N3F1)
	if err != nil {
		return err
	}
	fmt.Printf("of %d members %d may be faulty, and %d are a quorum\n", members, faults, quorum)

	first, err := signed("A", 0, 1, 2)
	if err != nil {
		return err
	}
	second, err := signed("B", 1, 2, 3)
	if err != nil {
		return err
	}
	both, err := commonware.Equivocation(commonware.N3F1, members, first, second)
	if err != nil {
		return err
	}
	fmt.Printf("[%d, %d] signed both\n", both[0], both[1])
	return nil
}

// signed returns a certificate of a decision in view 7.
func signed(decision string, signers ...uint32) ([]byte, error) {
	value, err := commonware.SlotValue([]byte("view 7"), []byte(decision))
	if err != nil {
		return nil, err
	}
	return commonware.EncodeCertificate(value, signers)
}

func main() {
	if err := run(); err != nil {
		log.Fatal(err)
	}
}
