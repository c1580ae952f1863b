// Prints what a quorum of stakes weighs, and which members signed two different values.
package main

import (
	"fmt"
	"log"

	"commonware.example/commonware/v2"
)

func run() error {
	weights, model := []uint64{40, 30, 20, 10}, commonware.N3F1
	it, err := model.WeightsQuorum(weights)
	if err != nil {
		return err
	}
	fmt.Printf("of %d in all %d may be faulty, and a quorum weighs %d\n", it.Total, it.MaxFaultyWeight, it.QuorumWeight)

	// A value of one byte, and then its signers.
	first, second := []byte("\x01A\x02\x00\x01"), []byte("\x01B\x03\x00\x02\x03")
	named, err := commonware.WeightedConflict(model, weights, first, second)
	if err != nil {
		return err
	}
	fmt.Printf("%d signed both, with a weight of %d\n", named.Members, named.Weight)
	return nil
}

func main() {
	if err := run(); err != nil {
		log.Fatal(err)
	}
}
