package commonware_test

import (
	"bytes"
	"errors"
	"math"
	"math/big"
	"reflect"
	"sync"
	"testing"

	. "commonware.example/commonware/v2"
)

// plainNumbers sums weights without a limit, and looks for f by halving.
func plainNumbers(k uint32, weights []uint64) (WeightNumbers, error) {
	if k < 2 {
		return WeightNumbers{}, ErrNoModel
	}
	if len(weights) == 0 {
		return WeightNumbers{}, ErrNoMembers
	}
	sum := new(big.Int)
	for index, weight := range weights {
		sum.Add(sum, new(big.Int).SetUint64(weight))
		if weight == 0 {
			return WeightNumbers{}, ZeroWeightError{Index: index}
		}
		if sum.BitLen() > 64 {
			return WeightNumbers{}, WeightOverflowError{Index: index}
		}
	}
	total, faulty := sum.Uint64(), uint64(0)
	for bit := 63; bit >= 0; bit-- {
		more := new(big.Int).SetUint64(faulty | 1<<bit)
		if more.Mul(more, big.NewInt(int64(k))).Cmp(sum) < 0 {
			faulty |= 1 << bit
		}
	}
	return WeightNumbers{total, faulty, total - faulty, 2*faulty + 1}, nil
}

// plainWeight returns what members weigh, or ErrOutside.
func plainWeight(weights []uint64, members []uint32) (uint64, error) {
	sum := uint64(0)
	for _, member := range members {
		if uint64(member) >= uint64(len(weights)) {
			return 0, ErrOutside
		}
		sum += weights[member]
	}
	return sum, nil
}

func isHeavy(numbers WeightNumbers, weight uint64) error {
	if weight < numbers.QuorumWeight {
		return ErrTooLight
	}
	return nil
}

func plainWeightedCheck(k uint32, weights []uint64, input []byte) (WeightedChecked, error) {
	numbers, err := plainNumbers(k, weights)
	if err != nil {
		return WeightedChecked{}, err
	}
	value, signers, err := theCertificate(input)
	if err != nil {
		return WeightedChecked{}, err
	}
	weight, err := plainWeight(weights, signers)
	if err == nil {
		err = isHeavy(numbers, weight)
	}
	if err != nil {
		return WeightedChecked{}, err
	}
	slot, decision, hasSlot := plainSlot(value)
	return WeightedChecked{Checked{value, hasSlot, slot, decision, uint32(len(signers))}, weight}, nil
}

// judgeSlots returns why two values are no decisions for one slot.
func judgeSlots(value, other []byte) error {
	slot, _, isThere := plainSlot(value)
	if !isThere {
		return of(1, ErrNoSlot)
	}
	otherSlot, _, isThere := plainSlot(other)
	if !isThere {
		return of(2, ErrNoSlot)
	}
	if !bytes.Equal(slot, otherSlot) {
		return ErrOtherSlot
	}
	return nil
}

// judgeWeights returns why two lists of signers aren't both members that weigh a quorum.
func judgeWeights(numbers WeightNumbers, weights []uint64, signers, others []uint32) error {
	weight, err := plainWeight(weights, signers)
	if err != nil {
		return of(1, err)
	}
	otherWeight, err := plainWeight(weights, others)
	if err != nil {
		return of(2, err)
	}
	if err := isHeavy(numbers, weight); err != nil {
		return of(1, err)
	}
	return of(2, isHeavy(numbers, otherWeight))
}

func plainWeightedBoth(k uint32, weights []uint64, first, second []byte, isOneSlot bool) (Named, error) {
	numbers, err := plainNumbers(k, weights)
	if err != nil {
		return Named{}, err
	}
	value, signers, err := theCertificate(first)
	if err != nil {
		return Named{}, of(1, err)
	}
	other, others, err := theCertificate(second)
	if err != nil {
		return Named{}, of(2, err)
	}
	if isOneSlot {
		if err := judgeSlots(value, other); err != nil {
			return Named{}, err
		}
	}
	if bytes.Equal(value, other) {
		return Named{}, ErrSameValue
	}
	if err := judgeWeights(numbers, weights, signers, others); err != nil {
		return Named{}, err
	}
	named := Named{}
	for _, signer := range signers {
		for _, other := range others {
			if signer == other {
				named.Members = append(named.Members, signer)
				named.Weight += weights[signer]
			}
		}
	}
	return named, nil
}

// weights returns weights of which one is seldom 0, and whose sum is seldom past 64 bits.
func (d draw) weights() []uint64 {
	bits := d.of(1, 2, 4, 32, 60, 61, 62)
	weights := make([]uint64, d.Intn(12))
	for i := range weights {
		weights[i] = 1 + d.Uint64()>>(64-bits)
	}
	if len(weights) > 0 {
		switch at := d.Intn(len(weights)); d.Intn(24) {
		case 0:
			weights[at] = 0
		case 1:
			weights[at] = math.MaxUint64 - uint64(d.Intn(3))
		case 2, 3, 4:
			weights[at] = 1 << 62
		}
	}
	return weights
}

// weightName returns the name of an error without its numbers.
func weightName(err error) string {
	switch err.(type) {
	case ZeroWeightError:
		return "zero"
	case WeightOverflowError:
		return "overflow"
	}
	return name(err)
}

func TestNumbersOfWeights(t *testing.T) {
	d, counts := drawing(21), seen{}
	for i := 0; i < cases(t); i++ {
		k, weights := d.Uint32()>>d.Intn(32), d.weights()
		wanted, wantedErr := plainNumbers(k, weights)
		numbers, err := FaultModel(k).WeightsQuorum(weights)
		counts[weightName(err)]++
		same(t, []interface{}{numbers, err}, []interface{}{wanted, wantedErr}, k, weights)
	}
	counts.assertEach(t, 5, cases(t)/200)
}

func TestCertificatesAreCheckedByWeight(t *testing.T) {
	d, counts := drawing(22), seen{}
	for i := 0; i < cases(t); i++ {
		k, weights := uint32(1+d.Intn(7)), d.weights()
		input := d.spoiled(certificateBytes(d.value(), d.signers(len(weights))))
		wanted, wantedErr := plainWeightedCheck(k, weights, input)
		checked, err := WeightedCheck(FaultModel(k), weights, input)
		counts[weightName(err)]++
		same(t, err, wantedErr, k, weights, input)
		if err == nil {
			same(t, checked, wanted, k, weights, input)
		} else {
			same(t, checked, WeightedChecked{})
		}
	}
	counts.assertEach(t, 11, cases(t)/400)
}

func TestConflictsAndEquivocationsByWeight(t *testing.T) {
	calls := []func(FaultModel, []uint64, []byte, []byte) (Named, error){WeightedConflict, WeightedEquivocation}
	for index, call := range calls {
		d, counts := drawing(int64(23+index)), seen{}
		for i := 0; i < cases(t); i++ {
			k, weights := uint32(d.of(1, 2, 3, 3, 3, 4, 5, 6, 7)), d.weights()
			first := certificateBytes(d.value(), d.signers(len(weights)))
			second := certificateBytes(d.value(), d.signers(len(weights)))
			if d.Intn(4) == 0 {
				first = d.spoiled(first)
			}
			if d.Intn(4) == 0 {
				second = d.spoiled(second)
			}
			wanted, wantedErr := plainWeightedBoth(k, weights, first, second, index == 1)
			named, err := call(FaultModel(k), weights, first, second)
			counts[weightName(err)]++
			same(t, []interface{}{named, err}, []interface{}{wanted, wantedErr}, k, weights, first, second)
			if err == nil {
				numbers, _ := plainNumbers(k, weights)
				same(t, named.Weight > uint64(k-2)*numbers.MaxFaultyWeight, true, k, weights)
			}
		}
		counts.assertEach(t, 12+2*index, cases(t)/800)
	}
}

func TestSumsAtTheEdgesOfSixtyFourBits(t *testing.T) {
	const most, half = math.MaxUint64, 1 << 63
	for _, row := range []struct {
		weights []uint64
		total   uint64
		err     error
	}{
		{nil, 0, ErrNoMembers},
		{[]uint64{}, 0, ErrNoMembers},
		{[]uint64{5, 0, 5}, 0, ZeroWeightError{Index: 1}},
		{[]uint64{half, half - 1}, most, nil},
		{[]uint64{half, half - 1, 1}, 0, WeightOverflowError{Index: 2}},
	} {
		numbers, err := N3F1.WeightsQuorum(row.weights)
		same(t, []interface{}{numbers.Total, err}, []interface{}{row.total, row.err}, row.weights)
		_, err = FaultModel(1).WeightsQuorum(row.weights)
		same(t, err, ErrNoModel, row.weights)
	}
	numbers, err := N3F1.WeightsQuorum([]uint64{most})
	same(t, err, nil)
	same(t, numbers, WeightNumbers{most, 6148914691236517204, 12297829382473034411, 12297829382473034409})
	numbers, err = FaultModel(math.MaxUint32).WeightsQuorum([]uint64{1 << 53})
	same(t, err, nil)
	same(t, numbers, WeightNumbers{1 << 53, 2097152, 9007199252643840, 4194305})
	text := WeightOverflowError{Index: 7}.Error()
	same(t, text, "commonware: with weight 7 the sum is past 18446744073709551615")
}

func TestManyWeights(t *testing.T) {
	// The first 65,536 weigh 1, and the others 1,000: 4,529,536 in all, of which a quorum weighs 3,019,691.
	weights := make([]uint64, 70_000)
	for i := range weights {
		weights[i] = 1
		if i >= 65_536 {
			weights[i] = 1000
		}
	}
	signed := func(decision string, light, from uint32) []byte {
		signers := []uint32{}
		for i := uint32(0); i < light; i++ {
			signers = append(signers, i)
		}
		for i := from; i < from+3019; i++ {
			signers = append(signers, i)
		}
		return certificate(decision, signers...)
	}
	first, second := signed("A", 691, 65_536), signed("B", 691, 66_981)
	checked, err := WeightedCheck(N3F1, weights, first)
	same(t, []interface{}{checked.Signers, checked.Weight, err}, []interface{}{uint32(3710), uint64(3019691), nil})
	named, err := WeightedEquivocation(N3F1, weights, first, second)
	// The light ones signed both too.
	same(t, []interface{}{len(named.Members), named.Weight, err}, []interface{}{691 + 1574, uint64(691 + 1574000), nil})
	same(t, []uint32{named.Members[690], named.Members[691]}, []uint32{690, 66_981})
	_, err = WeightedConflict(N3F1, weights, first, signed("B", 690, 66_981))
	same(t, err, CertificateError{Which: 2, Err: ErrTooLight})
	_, err = WeightedConflict(N3F1, weights, signed("B", 691, 66_982), first)
	same(t, err, CertificateError{Which: 1, Err: ErrOutside})
	weights[69_999] = 0
	_, err = WeightedCheck(N3F1, weights, first)
	same(t, err, ZeroWeightError{Index: 69_999})
	weights[69_999] = math.MaxUint64
	_, err = WeightedConflict(N3F1, weights, first, second)
	same(t, errors.Is(err, WeightOverflowError{Index: 69_999}), true)
}

func TestManyGoroutinesWeigh(t *testing.T) {
	weights := make([]uint64, 300)
	first, second := []uint32{}, []uint32{}
	for i := range weights {
		weights[i] = 7
		if i < 201 {
			first = append(first, uint32(i))
			second = append(second, uint32(i+99))
		}
	}
	one, two := certificate("A", first...), certificate("B", second...)
	var group sync.WaitGroup
	for worker := 0; worker < 8; worker++ {
		group.Add(1)
		go func() {
			defer group.Done()
			for i := 0; i < 500; i++ {
				named, err := WeightedEquivocation(N3F1, weights, one, two)
				if err != nil || named.Weight != 7*102 || !reflect.DeepEqual(named.Members, first[99:]) {
					t.Errorf("%v %v", named, err)
				}
			}
		}()
	}
	group.Wait()
}
