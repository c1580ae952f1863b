//go:build cgo

package commonware

// A Certificate is a value, and the indices of the members that signed it, strictly increasing. Whether a signature is
// genuine isn't tested.
//
// An index is that of [Committee.Position]: the place in the order of the keys, not that in which they were given.
type Certificate struct {
	// Value is the bytes that were signed, where the certificate's encoding has them.
	Value []byte
	// Signers are the indices of those that signed.
	Signers []uint32
}

// ReadCertificate decodes the certificate at the start of the input, with a value of up to mostBytes bytes and up to
// mostSigners signers, and returns it with what follows. Else the error is the first fault (decoding error):
// [ErrEndOfInput], [ErrInvalidVarint], [InvalidLengthError] or [ErrNotStrict]; or [ErrNegative].
func ReadCertificate(input []byte, mostBytes, mostSigners int) (Certificate, []byte, error) {
	if areNegative(mostBytes, mostSigners) {
		return Certificate{}, nil, ErrNegative
	}
	// The first call tells how many indices it takes.
	var signers []uint32
	view := callCertificateRead(input, mostBytes, mostSigners, nil)
	if view.status == statusRoom {
		signers = make([]uint32, view.signers)
		view = callCertificateRead(input, mostBytes, mostSigners, signers)
	}
	if err := errorOf(view.status, view.number); err != nil {
		return Certificate{}, nil, err
	}
	return Certificate{part(input, view.valueStart, view.valueLength), signers}, rest(input, view.left), nil
}

// part returns some bytes of an input, without spare capacity.
func part(input []byte, start, length int) []byte {
	return input[start : start+length : start+length]
}

// DecodeCertificate decodes the certificate that the whole input is, of any lengths. The errors are those of
// [ReadCertificate], and [LeftOverError].
func DecodeCertificate(input []byte) (Certificate, error) {
	certificate, rest, err := ReadCertificate(input, NoLimit, NoLimit)
	if err := whole(rest, err); err != nil {
		return Certificate{}, err
	}
	return certificate, nil
}

// EncodeCertificate encodes the certificate of a value and of the indices of those that signed it, which are strictly
// increasing. The errors are [InvalidLengthError] for a value or signers past 4294967295, and [NotStrictError] with the
// index of the first signer that isn't greater than the one before it.
func EncodeCertificate(value []byte, signers []uint32) ([]byte, error) {
	room := make([]byte, 10+len(value)+5*len(signers))
	return written(callCertificateEncode(value, signers, room), room)
}

// Slot returns the slot and the decision that the value is, as [SplitValue] does.
func (c Certificate) Slot() (slot, decision []byte, isThere bool) {
	return SplitValue(c.Value)
}

// SlotValue returns the value that a decision for a slot is, which members sign: the slot's length, the slot, and the
// decision. No other slot and decision have these bytes. The error is [InvalidLengthError] for a slot, a decision or a
// value past 4294967295.
func SlotValue(slot, decision []byte) ([]byte, error) {
	room := make([]byte, 5+len(slot)+len(decision))
	return written(callSlotValue(slot, decision, room), room)
}

// SplitValue returns the slot and the decision that a value is, and true; or false where it is no decision for a slot.
func SplitValue(value []byte) (slot, decision []byte, isThere bool) {
	// The library tells them of certificates that a quorum signed, such as one by a committee of one.
	input, err := EncodeCertificate(value, []uint32{0})
	if err != nil {
		return nil, nil, false
	}
	view := callCheck(2, 1, input)
	if view.slotStart == 0 {
		return nil, nil, false
	}
	slot = part(value, view.slotStart-view.valueStart, view.slotLength)
	return slot, part(value, view.decisionStart-view.valueStart, view.decisionLength), true
}

// A Checked certificate is one whose signers are members of a committee and at least a quorum.
type Checked struct {
	// Value is the bytes that were signed.
	Value []byte
	// HasSlot tells whether the value is a decision for a slot.
	HasSlot bool
	// Slot and Decision are the slot and the decision that the value is, and nil where it is none.
	Slot, Decision []byte
	// Signers is how many members signed.
	Signers uint32
}

// Check reads the input as exactly one certificate and returns what it says, where its signers are members of a
// committee with this number of members, and at least a quorum of the model.
//
// Warning: no signature is looked at. Whoever doesn't verify them knows nothing of who signed.
//
// Else the error is the first of these: [ErrNoModel], [ErrNoMembers], a fault of the input ([ErrEndOfInput],
// [ErrInvalidVarint], [ErrNotStrict], [LeftOverError]), [ErrOutside], [ErrTooFew].
func Check(model FaultModel, members uint32, input []byte) (Checked, error) {
	return checkedOf(callCheck(uint32(model), members, input), input)
}

// checkedOf returns what was found in an input, where it is a certificate of a quorum.
func checkedOf(view checkView, input []byte) (Checked, error) {
	if err := errorOf(view.status, view.number); err != nil {
		return Checked{}, err
	}
	checked := Checked{Value: part(input, view.valueStart, view.valueLength), Signers: view.signers}
	if view.slotStart > 0 {
		checked.HasSlot = true
		checked.Slot = part(input, view.slotStart, view.slotLength)
		checked.Decision = part(input, view.decisionStart, view.decisionLength)
	}
	return checked, nil
}

// Conflict returns the indices, in order, of the members that signed both of two certificates for different values, in
// a committee with this number of members. With f of them faulty at most, they are at least (k - 2)f + 1; where the
// model's k is 3 or more, at least one of them is outside every set of f members. Each input is exactly one
// certificate.
//
// To sign two values is a fault only where both are for one slot (chain, committee, height, round and kind of vote,
// say), which [Equivocation] asks: honest members sign many values, at most one a slot.
//
// Warning: no signature is looked at. Whoever doesn't verify them first may accuse an innocent member.
//
// Else the error is the first of these: [ErrNoModel], [ErrNoMembers], a fault of the first input ([ErrEndOfInput],
// [ErrInvalidVarint], [ErrNotStrict], [LeftOverError]), one of the second, [ErrSameValue], [ErrOutside] of the first,
// of the second, [ErrTooFew] of the first, of the second. One that is about the first or the second is in a
// [CertificateError].
func Conflict(model FaultModel, members uint32, first, second []byte) ([]uint32, error) {
	return named(callConflict, model, members, first, second)
}

// Equivocation returns the indices, in order, of the members that equivocated: those that signed both of two
// certificates for different decisions for one slot. All is as [Conflict] has it, and no honest member is named where
// honest members sign at most one decision a slot.
//
// Warning: no signature is looked at. Whoever doesn't verify them first may accuse an innocent member.
//
// Else the error is the first of these: [ErrNoModel], [ErrNoMembers], a fault of the first input, one of the second,
// [ErrNoSlot] of the first value, of the second, [ErrOtherSlot], [ErrSameValue] for one decision, [ErrOutside] of the
// first, of the second, [ErrTooFew] of the first, of the second. One that is about the first or the second is in a
// [CertificateError].
func Equivocation(model FaultModel, members uint32, first, second []byte) ([]uint32, error) {
	return named(callEquivocation, model, members, first, second)
}

type namer func(k, members uint32, first, second []byte, room []uint32) conflictView

// named returns the members that a call names.
func named(call namer, model FaultModel, members uint32, first, second []byte) ([]uint32, error) {
	// The first call tells how many indices it takes.
	var named []uint32
	view := call(uint32(model), members, first, second, nil)
	if view.status == statusRoom {
		named = make([]uint32, view.count)
		view = call(uint32(model), members, first, second, named)
	}
	return named, errorAbout(view.status, view.which, view.number)
}

// errorAbout returns the error of a status, with the certificate that it is about, or nil.
func errorAbout(status, which uint32, number int) error {
	err := errorOf(status, number)
	if err != nil && which > 0 {
		return CertificateError{Which: int(which), Err: err}
	}
	return err
}
