"""What docs/HEADLINE.md says beside the definitions. man/make_headline.py fails on a name here that
the page has not, and on a word of the kit on the page that is not here."""

# Each phrase of the headline, with the names that say it, in its order. README has the whole
# sentence.
PHRASES = [
    ("Where `link` answers Ok", ["OnOk"]),
    ("the bytes written", ["Appends", "AppendsLinkedFile"]),
    ("are exactly one code file", ["LinkedFile"]),
    ("every segment", ["segments_of", "codes"]),
    ("is its input's code, byte for byte", ["IsLinkedByte", "kept"]),
    (
        "except that each reference holds its definition's value added to its displacement",
        ["reference", "Becomes", "displacement_at"],
    ),
    ("each linked segment its slot's number", ["number"]),
    (
        "and the host's outer block a data size grown by the private words",
        ["size", "grown_data_size", "all_private_words"],
    ),
    ("every kind is LINKED", ["kinds_and_texts"]),
    ("and no link information is left", ["padding"]),
]

# Definitions that say by facts when something is so, and those that compute it. The first are to be
# read.
TWINS = [("IsNamed", "is_named"), ("HasEntry", "has_entry"), ("Stops", "reading")]

# Signs of the language, which no file brings in.
SIGNS = {
    "`(x : A) → P`": "for each `x` of `A`, `P`",
    "`(x : A) × P`": "there is an `x` of `A` with `P`",
    "`A → ⊥`": "not `A`; `⊥` is never so, and `⊤` always",
    "`A ↔ B`": "`A` exactly if `B`",
    "`a ≢ b`": "`a` and `b` are not equal",
    "`Type 0`": "what comes out is a statement, and no value",
    "`λ x. t`": "the function that gives `t` of `x`",
    "`x ∷ xs`": "the list of `x` and then those of `xs`; `[]` is the empty list, `++` puts two "
                "together",
    "`p.0`, `p.1`": "the first and the second of a pair",
    "`a - b`": "the difference of numbers, and 0 if `b` is greater; `/` drops the rest, `%` gives "
               "it",
    "`elim x [ A ↦ t \\| B ↦ u ]`": "`t` if `x` is `A`, and `u` if it is `B`",
    "`record s { a = t }`": "`s` with `t` in its field `a`; `record { .. }` has each field",
    "`reason.X`, `role.X`": "the variant `X` of that type",
    "`{X : Type 0}`": "for any type `X`, which is left out where the definition is used",
    "`pub`, `abbrev`, `unfoldable`": "who may use a definition, and how the prover opens it; they "
                                     "change no meaning",
    "`p.old`, `p.new`, `p.now`": "what the parameter `p` refers to before the call, after it, and "
                                 "throughout",
    "`W.contents w`": "`Some` of the bytes that a known writer `w` has received, and `None` of any "
                      "other writer",
}

# Each word of the kit on the page. Places in a list count from 0.
WORDS = {
    "All": "`All P xs`: `P` holds of each item",
    "AllByRecursion": "the same as `All`",
    "Appends": "`Appends old new bs`: if `old` is known, `new` is `old` with `bs` behind it; of an "
               "unknown writer it says nothing",
    "Bool": "`true` or `false`",
    "Err": "a `Result` that is an error",
    "IfErr": "`IfErr r P`: if `r` is `Err e`, then `P e`",
    "IfOk": "`IfOk r P`: if `r` is `Ok x`, then `P x`",
    "List": "a list",
    "None": "an `Option` without a value",
    "Ok": "a `Result` that is a value",
    "OnOk": "`OnOk r P`: if `r` is `Ok`, then `P`",
    "Option": "a value, or none",
    "Result": "a value, or an error",
    "Some": "an `Option` with a value",
    "bytes_eq": "whether two lists of numbers are equal",
    "drop": "`drop n xs`: `xs` without its first `n`",
    "enumerate_from": "`enumerate_from n xs`: each item with its number, from `n` on",
    "false": "no",
    "filter": "`filter test xs`: the items that pass, in their order",
    "filter_map": "`filter_map f xs`: the values of `f` of the items, where it has one",
    "find": "`find test xs`: the first item that passes",
    "flat_map": "`flat_map f xs`: the lists that `f` gives of the items, one after another",
    "is_none": "whether an `Option` has no value",
    "is_some": "whether an `Option` has a value",
    "length": "how many items a list has",
    "list_all": "whether each item passes",
    "list_any": "whether some item passes",
    "lookup": "`lookup test xs`: of the pairs, the second of the first pair whose first passes",
    "map": "`map f xs`: the list of `f` of each item",
    "nat_le": "`nat_le a b`: whether `a` is at most `b`",
    "nat_lt": "`nat_lt a b`: whether `a` is less than `b`",
    "not": "the other of `true` and `false`",
    "option_and_then": "`option_and_then f o`: `f` of the value, which may have none, or none",
    "option_map": "`option_map f o`: `f` of the value, or none",
    "option_map_or": "`option_map_or f o d`: `f` of the value, or `d`",
    "option_or": "`option_or o p`: `o` if it has a value, and else `p`",
    "range_with_len": "`range_with_len a n`: the `n` numbers from `a` on",
    "result_err": "the error, or none",
    "result_ok": "the value, or none",
    "slice_get": "`slice_get xs i`: the item at `i`, or none behind the end",
    "slice_index": "`slice_index xs i`: the number at `i`, and 0 behind the end",
    "slice_range": "`slice_range xs a b`: the items from `a` to before `b`",
    "suc": "`suc n`: `n + 1`",
    "sum_by": "`sum_by f xs`: the sum of `f` of the items",
    "take": "`take n xs`: the first `n` of `xs`, or all",
    "true": "yes",
    "unwrap_or": "`unwrap_or o d`: the value, or `d`",
    "zero": "0",
    "ℕ": "the numbers from 0 on; a byte is one below 256",
}
