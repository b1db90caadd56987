# From crates comparison, marker_code to marker_kind, marker_value, marker_verdict, and two words of name. Use: sed -E -i -f comparison.sed FILES (not crates.txt: comparison-crates.sed).

# Files, as patches name them.
s#crates/comparison/src/kind\.rt#crates/marker_kind/src/kind.rt#g
s#crates/marker_code/src/lib\.rt#crates/marker_kind/src/code.rt#g
s#crates/marker_code/proofs/([a-z_]+)/Proof#crates/marker_kind/proofs/code/\1/Proof#g
s#crates/marker_code/#crates/marker_kind/#g
s#crates/comparison/src/(value|operator|edition)\.rt#crates/marker_value/src/\1.rt#g
s#crates/comparison/specs/(Value|Operator)\.antt#crates/marker_value/specs/\1.antt#g
s#crates/comparison/proofs/(value|operator)/#crates/marker_value/proofs/\1/#g
s#crates/comparison/proofs/(Values|Editions)\.antt#crates/marker_value/proofs/\1.antt#g
s#crates/comparison/src/judge\.rt#crates/marker_verdict/src/verdict.rt#g
s#crates/comparison/specs/Judge\.antt#crates/marker_verdict/specs/Verdict.antt#g
s#crates/comparison/proofs/judge/#crates/marker_verdict/proofs/verdict/#g
s#crates/comparison/#crates/marker_verdict/#g

# Names that stood in Judge and stand elsewhere: an import that lists them with others becomes several.
/Rattle·comparison(\.specs|·specs\.specs)\.Judge\.\{([^}]*, )?operatorCode[,}]/{
  s/^(.*)$/\1\n\1/
  s/comparison(\.specs|·specs\.specs)\.Judge\.\{[^}]*\}/marker_kind.specs.Code.{operatorCode}/
  P
  s/^[^\n]*\n//
  s/(Judge\.\{([^}]*, )?)operatorCode(, )?/\1/
  s/, \}/}/
  /Judge\.\{\}/d
}
/Rattle·comparison(\.specs|·specs\.specs)\.Judge\.\{([^}]*, )?(Value)?Inside[,}]/{
  s/^(.*)$/\1\n\1/
  s/^([^\n]*)comparison(\.specs|·specs\.specs)\.Judge\.\{([^}\n]*, )?Inside, ([^}\n]*, )?ValueInside\b[^}]*\}/\1marker_value\2.Value.{Inside, ValueInside}/
  s/^([^\n]*)comparison(\.specs|·specs\.specs)\.Judge\.\{([^}\n]*, )?ValueInside\b[^}]*\}/\1marker_value\2.Value.{ValueInside}/
  s/^([^\n]*)comparison(\.specs|·specs\.specs)\.Judge\.\{([^}\n]*, )?Inside\b[^}]*\}/\1marker_value\2.Value.{Inside}/
  P
  s/^[^\n]*\n//
  s/(Judge\.\{([^}]*, )?)ValueInside(, |\})/\1\3/
  s/\{, /{/
  s/, , /, /
  s/(Judge\.\{([^}]*, )?)Inside(, |\})/\1\3/
  s/\{, /{/
  s/, , /, /
  s/, \}/}/
  /Judge\.\{\}/d
}

# Modules, from above (.specs) and as their own crate names them (·specs.specs).
s/Rattle·comparison(\.specs|·specs\.specs)\.declared\.kind\./Rattle·marker_kind\1.declared.kind./g
s/Rattle·comparison(\.specs|·specs\.specs)\.declared\.(value|operator|edition)\./Rattle·marker_value\1.declared.\2./g
s/Rattle·comparison(\.specs|·specs\.specs)\.declared\.judge\./Rattle·marker_verdict\1.declared.verdict./g
s/Rattle·comparison(\.specs|·specs\.specs)\.declared\.found\./Rattle·marker_verdict\1.declared.found./g
s/Rattle·comparison(\.specs|·specs\.specs)\.(Value|Operator)\./Rattle·marker_value\1.\2./g
s/Rattle·comparison(\.specs|·specs\.specs)\.Judge\./Rattle·marker_verdict\1.Verdict./g
s/Rattle·comparison(\.specs|·specs\.specs)\.Found\./Rattle·marker_verdict\1.Found./g
s/Rattle·comparison(\.proofs|·proofs\.proofs)\.(Values|Editions|value|operator)\./Rattle·marker_value\1.\2./g
s/Rattle·comparison(\.proofs|·proofs\.proofs)\.judge\./Rattle·marker_verdict\1.verdict./g
s/Rattle·comparison(\.proofs|·proofs\.proofs)\./Rattle·marker_verdict\1./g
s/Rattle·marker_code·proofs\.proofs\.([a-z_]+)\./Rattle·marker_kind·proofs.proofs.code.\1./g
s/Rattle·marker_code(\.|·)/Rattle·marker_kind\1/g

# Code.
s/\bcomparison::(Comparison|ExtraKind|Key|Operator|Sort|operator_code)\b/marker_kind::\1/g
s/\bcomparison::(Found|Verdict|find)\b/marker_verdict::\1/g
s/\bmarker_code::/marker_kind::/g

# Words: `judge` is kept for a later request, `goes` had three meanings.
s/\bjudge_version\b/version_verdict/g
s/\bjudge_mirrored\b/mirrored_verdict/g
s/\bjudge_string\b/string_verdict/g
s/\bjudge_extra\b/extra_verdict/g
s/\bjudge_set\b/set_verdict/g
s/\bjudge-version-/version-verdict-/g
s/\bjudge-mirrored-/mirrored-verdict-/g
s/\bjudge-string-/string-verdict-/g
s/\bjudge-extra-/extra-verdict-/g
s/\bjudge-set-/set-verdict-/g
s/\bproofs\.verdict\.judge\./proofs.verdict.verdict_of./g
s#proofs/verdict/judge/#proofs/verdict/verdict_of/#g
s/\bcrate::judge::judge\b/crate::verdict::verdict_of/g
s/\bcrate::judge::/crate::verdict::/g
s/\bmod judge;/mod verdict;/g
s/\bpub use judge::/pub use verdict::/g
s/\bjudge-(spec|requires)/verdict-of-\1/g
s/\b(pub fn |verdict: )judge\(/\1verdict_of(/g
s/\bmay_go\b/may_go_in/g
s/\bmay-go-(spec|requires)/may-go-in-\1/g
s/\bgoes_in\b/may_go_with/g
s/\bgoes-in\b/may-go-with/g
s/\bgoes-as\b/may-go-as/g
s/(Verdict\.\{([^}]*, )?)goes([,}])/\1mayGoWith\3/g
s/\bgoes (op|op′|turned|Equal|NotEqual|Less|LessEqual|Greater|GreaterEqual|Compatible|In|NotIn|Contains|NotContains|Exact|\(mirror op\)|\(a \.op\)|: Operator →)/mayGoWith \1/g
s/(·name(\.specs|·specs\.specs)\.Normal\.\{([^}]*, )?)goes([,}])/\1merges\4/g
s/\bgoes (\(b ∷|\(c ∷|\(x ∷|l |s =|s :|\(drop i|: List ℕ → Bool)/merges \1/g
s/\bgoes_at\b/merges_at/g
s/\bgoes-at\b/merges-at/g

# 18 at the end of the line.
s/(quotedAt ([a-z]) at\).*refusal ValueMissing )at 1/\1(length \2) 1/
s/^([-+ ]? *\(Taken\.Fault \(refusal ValueMissing )at 1/\1(length s) 1/
s/Fault::ValueMissing, cur\.at, 1/Fault::ValueMissing, line.len(), 1/

# In a patch, by the crate of its file: what is its own and what stands below; the two rulesets that were one.
/^diff --git /h
/Rattle·marker_|judging/{
  G
  /\n.* b\/crates\/marker_kind\//!s/Rattle·marker_kind·(specs|proofs)\.(specs|proofs)/Rattle·marker_kind.\1/g
  /\n.* b\/crates\/marker_value\//{
    s/Rattle·marker_verdict·proofs\.proofs\.Laws\./Rattle·marker_value·proofs.proofs.Laws./g
    s/\bjudging\b/taking/g
  }
  /\n.* b\/crates\/marker_value\//!s/Rattle·marker_value·(specs|proofs)\.(specs|proofs)/Rattle·marker_value.\1/g
  /\n.* b\/crates\/marker_verdict\//!s/Rattle·marker_verdict·(specs|proofs)\.(specs|proofs)/Rattle·marker_verdict.\1/g
  /\n.* b\/crates\/marker_verdict\//s/\bjudging\b/deciding/g
  s/\n.*//
}
