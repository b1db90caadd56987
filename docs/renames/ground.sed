# From crate text to refusal, text, cursor, arrays. Use: sed -E -i -f ground.sed FILES

# Types.
s/Rattle·text\.specs\.declared\.refusal\.(Span|Offset|ComparisonNumber)\b/Rattle·refusal.specs.declared.place.\1/g
s/Rattle·text\.specs\.declared\.refusal\.(Fault|Refusal)\b/Rattle·refusal.specs.declared.fault.\1/g
s/Rattle·text\.specs\.declared\.check\.Checked\b/Rattle·refusal.specs.declared.fault.Outcome/g
s/Rattle·text\.specs\.declared\.cursor\./Rattle·cursor.specs.declared.cursor./g

# Modules that moved whole.
s/Rattle·text\.specs\.(Answer|Refusal)\b/Rattle·refusal.specs.\1/g
s/Rattle·text\.specs\.Cursor\b/Rattle·cursor.specs.Cursor/g
s/Rattle·text\.specs\.Check as Check\b/Rattle·refusal.specs.Refusal as Check/
s/Rattle·text\.proofs\.Numbers\b/Rattle·refusal.proofs.Numbers/g
s/Rattle·text\.proofs\.Checks\b/Rattle·cursor.proofs.Checks/g
s/Rattle·text\.proofs\.Front\b/Rattle·arrays.proofs.Front/g
s/Rattle·text\.proofs\.refusal\./Rattle·refusal.proofs.fault./g
s/Rattle·text\.proofs\.cursor\./Rattle·cursor.proofs.cursor./g

# Check: passes, told went to refusal. An import that lists them with others becomes several.
s/^(.*use )Rattle·text\.specs\.Check\.\{(([^}]*), )?passes(, ([^}]*))?\}(;?)$/\1Rattle·refusal.specs.Answer.{passes}\6\n\1Rattle·text.specs.Check.{\3, \5}\6/
s/^(.*\n)?(.*use )Rattle·text\.specs\.Check\.\{(([^}]*), )?told(, ([^}]*))?\}(;?)$/\1\2Rattle·refusal.specs.Refusal.{told}\7\n\2Rattle·text.specs.Check.{\4, \6}\7/
s/(Rattle·text\.specs\.Check\.\{)(, )+/\1/
s/(, )+\}/}/g
s/\n[^\n]*Rattle·text\.specs\.Check\.\{\};?$//
s/Rattle·text\.specs\.Check\b/Rattle·cursor.specs.Check/g

# Rulesets: scan and word went to cursor; what stays in text is called runs and spelling there.
s/^(.*use )Rattle·text\.proofs\.Laws\.\{scan(, ([^}]+))?\}/\1Rattle·cursor.proofs.Laws.{scan}\n\1Rattle·text.proofs.Laws.{\3}/
s/^(.*use )Rattle·text\.proofs\.Words\.\{(([^}]*), )?word\}/\1Rattle·cursor.proofs.Laws.{word}\n\1Rattle·text.proofs.Words.{\3}/
s/\n[^\n]*\.\{\};?$//

# Code.
s/\btext::(Refusal|Span|Fault|Offset|ComparisonNumber)\b/refusal::\1/g
s/\btext::Checked\b/refusal::Outcome/g
s/\btext::(Cursor|Peek|Step|check_line)\b/cursor::\1/g
s/\bChecked\b/Outcome/g
