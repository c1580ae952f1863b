// The error that each status of the library is.

import {
    END_OF_INPUT,
    INVALID_LENGTH,
    INVALID_VARINT,
    LEFT_OVER,
    MEMORY,
    NOT_STRICT,
    NOT_WHOLE,
    NO_MEMBERS,
    NO_MODEL,
    NO_SIZE,
    NO_SLOT,
    OK,
    OTHER_SLOT,
    OUTSIDE,
    REPEATED_KEY,
    SAME_VALUE,
    TOO_FEW,
    TOO_LIGHT,
    WEIGHT_OVERFLOW,
    ZERO_WEIGHT,
} from "./calls.js";
import {
    EndOfInput,
    InvalidLength,
    InvalidVarint,
    LeftOver,
    NoMembers,
    NoModel,
    NoSize,
    NoSlot,
    NotStrict,
    NotWhole,
    OtherSlot,
    OutOfMemory,
    Outside,
    RepeatedKey,
    SameValue,
    TooFew,
    TooLight,
    WeightOverflow,
    ZeroWeight,
} from "./errors.js";

// The error of each status, which is made of the view's number. Those of ROOM, ABSENT and REPEATED_VALUE aren't here:
// the calls that have these go on, or know more.
const BY_STATUS = new Map([
    [END_OF_INPUT, EndOfInput],
    [INVALID_VARINT, InvalidVarint],
    [INVALID_LENGTH, InvalidLength],
    [NOT_STRICT, NotStrict],
    [MEMORY, OutOfMemory],
    [LEFT_OVER, LeftOver],
    [NO_MEMBERS, NoMembers],
    [SAME_VALUE, SameValue],
    [OUTSIDE, Outside],
    [TOO_FEW, TooFew],
    [NO_MODEL, NoModel],
    [NO_SLOT, NoSlot],
    [OTHER_SLOT, OtherSlot],
    [NO_SIZE, NoSize],
    [NOT_WHOLE, NotWhole],
    [REPEATED_KEY, RepeatedKey],
    [ZERO_WEIGHT, ZeroWeight],
    [WEIGHT_OVERFLOW, WeightOverflow],
    [TOO_LIGHT, TooLight],
]);

/** Returns the error of a view whose status isn't 0. */
function errorOf(view) {
    const Class = BY_STATUS.get(view.status);
    // Of an input, NotStrict has no index.
    const error = Class === NotStrict ? new NotStrict(view.size === undefined ? null : view.number) : new Class(view.number);
    error.which = view.which || null;
    return error;
}

/** Returns the view of a call that is to have status 0, or one of these. */
export function checked(view, ...statuses) {
    if (view.status !== OK && !statuses.includes(view.status)) {
        throw errorOf(view);
    }
    return view;
}
