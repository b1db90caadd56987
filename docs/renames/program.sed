# Crate program became program_check (words, stack rules, trees, the check), program_laws (no code: what is proved of the check) and program_run (the
# runner, its machine, what is proved of running). For sed -s -i -f program.sed FILE.. on .antt, .rt and .patch files of other crates.
1{x;s/.*//;x}
# Reading, what may be made of a tree, is Sense: only in files that import it from program, not in paths
/Rattle·program\.specs\.Tree\.{[^}]*\bReading\b/{x;s/.*/sense/;x}
/^use Rattle·program\.specs\.Tree as /!{
x
/sense/{x;s/\([^.·A-Za-z]\|^\)Reading\b\([^.]\|$\)/\1Sense\2/g;s/\([^.·A-Za-z]\|^\)Reading\b\([^.]\|$\)/\1Sense\2/g;x}
x
}
# names that moved out of their module
s/^\(\(ghost \)\?use \)Rattle·program\.proofs\.Meaning\.{within-passes, within-ran}/\1Rattle·program_laws.proofs.Meaning.{within-passes}\n\1Rattle·program_run.proofs.Ran.{within-ran}/
s/^\(\(ghost \)\?use \)Rattle·program\.proofs\.Meaning\.{passes-runs, passes-within, passes-postfix}/\1Rattle·program_laws.proofs.Meaning.{passes-within, passes-postfix}\n\1Rattle·program_run.proofs.Passing.{passes-runs}/
s/Rattle·program\.proofs\.Meaning\.{passes-\(runs\|stands\)}/Rattle·program_run.proofs.Passing.{passes-\1}/
s/Rattle·program\.proofs\.Meaning\.{\(within-ran\|passes-ran\|ran-below\)}/Rattle·program_run.proofs.Ran.{\1}/
s/^\(\(ghost \)\?use \)Rattle·program\.specs\.Machine\.{stands, steps, joins, says}\(;\?\)/\1Rattle·program_run.specs.Machine.{stands, steps}\3\n\1Rattle·program_run.specs.inner.Obeying.{joins, says}\3/
s/Rattle·program\.specs\.Machine\.{joins, says}/Rattle·program_run.specs.inner.Obeying.{joins, says}/
s/^use Rattle·program\.specs\.Run\.{bit, following\(, ran\)\?}/use Rattle·program_run.specs.Run.{bit\1}\nuse Rattle·refusal.specs.Answer.{onGood}/
# following z v is onGood (λ ok. v) z of refusal
s/following \(z\|(checkedProgram s count)\) \([a-z][A-Za-z]*\)/onGood (λ ok. \2) \1/g
s/following \(z\|(checkedProgram s count)\) (\([^()]*\(([^()]*)[^()]*\)*\))/onGood (λ ok. \2) \1/g
# Passed, told of the check and passed-own are refusal's Outcome, told and told-own
s/Rattle·program\.specs\.Check\.{told}/Rattle·refusal.specs.Refusal.{told}/
s/^\(\(ghost \)\?use \)Rattle·program\.specs\.Check as Check$/\1Rattle·refusal.specs.Refusal as Check/
s/Rattle·program\.specs\.declared\.rules\.Passed/Rattle·refusal.specs.declared.fault.Outcome/g
s/Rattle·program\.proofs\.Own\.{passed-own}/Rattle·refusal.proofs.Numbers.{told-own}/
s/Rattle·program\.proofs\.Own\b/Rattle·program_run.proofs.Own/g
s/\bprogram::Passed\b/refusal::Outcome/g
s/\bPassed\b/Outcome/g
# pushesIn went down from marker
s/Rattle·marker·specs\.specs\.Numbers\.{pushesIn}/Rattle·program_check.specs.Word.{pushesIn}/
s/Rattle·marker\.specs\.Numbers\.{pushesIn}/Rattle·program_check.specs.Word.{pushesIn}/
# the bits of and, or, not stand beside bit
s/Rattle·known\(·proofs\.proofs\|\.proofs\)\.Bits\b/Rattle·program_run.proofs.Bits/g
# whole modules
s/Rattle·program\.specs\.declared\.machine\b/Rattle·program_run.specs.declared.machine/g
s/Rattle·program\.specs\.declared\b/Rattle·program_check.specs.declared/g
s/Rattle·program\.specs\.\(Run\|Machine\)\b/Rattle·program_run.specs.\1/g
s/Rattle·program\.specs\.\(Word\|Rules\|Check\|Tree\)\b/Rattle·program_check.specs.\1/g
s/Rattle·program\.proofs\.\(Runs\|Ran\|Alike\)\b/Rattle·program_run.proofs.\1/g
s/Rattle·program\.proofs\.\(Steady\|Forest\|Meaning\|Examples\)\b/Rattle·program_laws.proofs.\1/g
s/Rattle·program\.proofs\.\(Words\|Walk\|word\|rules\)\b/Rattle·program_check.proofs.\1/g
s/Rattle·program\.proofs\.machine\b/Rattle·program_run.proofs.machine/g
# code
s/\bprogram::\(Ran\|run\|bit_of\)\b/program_run::\1/g
s/\bprogram::\(Word\|word_of\|check\|is_operator\|MAX_SLOTS\)\b/program_check::\1/g
s/\bcrates\/program\/src\/machine\.rt/crates\/program_run\/src\/machine.rt/g
s/\bcrates\/program\/src\/lib\.rt/crates\/program_run\/src\/lib.rt/g
