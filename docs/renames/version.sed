# From the crate `version` of commit 2222707 to version_number, version_parts, version_operator, version and version_entry; for use lines of crates above, of .antt and .rt files.
# Whole modules
s/Rattle·version\.specs\.Number\b/Rattle·version_number.specs.Number/g
s/Rattle·version\.specs\.Part\b/Rattle·version_parts.specs.Part/g
s/Rattle·version\.specs\.Joined\b/Rattle·version_parts.specs.Joined/g
s/Rattle·version\.specs\.declared\.operator\./Rattle·version_operator.specs.declared.operator./g
s/Rattle·version\.proofs\.Numbers\b/Rattle·version_number.proofs.Numbers/g
s/Rattle·version\.proofs\.Parts\b/Rattle·version_parts.proofs.Parts/g
s/Rattle·version\.proofs\.Joins\b/Rattle·version_parts.proofs.Joins/g
# `Layout` keeps what is said of all parts; what is said of one went down
s/^\( *\(ghost \)\?use \)Rattle·version\.specs\.Layout\.{epochLen, segmentLen, localLen, \([^}]*\)}\(;\?\)$/\1Rattle·version_parts.specs.Local.{segmentLen, localLen}\4\n\1Rattle·version_parts.specs.Release.{epochLen}\4\n\1Rattle·version.specs.Layout.{\3}\4/
s/^\( *\(ghost \)\?use \)Rattle·version\.specs\.Layout\.{isDot, \([^}]*\)}\(;\?\)$/\1Rattle·version_parts.specs.Release.{isDot}\4\n\1Rattle·version.specs.Layout.{\3}\4/
# the operators' definitions: one over a table where there were two
s/^\( *\(ghost \)\?use \)Rattle·version\.specs\.Rules\.{\([^}]*\)laterOperatorIn, operatorIn, \([^}]*\)}\(;\?\)$/\1Rattle·version_operator.specs.Operator.{operatorAmong}\5\n\1Rattle·version.specs.Rules.{\3\4}\5/
s/^\(unfolding .*\)laterOperatorIn operatorIn\b/\1operatorAmong/
# the entries: `told` and `told-own` are refusal's
s/\bversion::Judged\b/refusal::Outcome/g
s/^\( *\(ghost \)\?use \)Rattle·version\.specs\.Rules\.{\([^}]*\), judged, told}\(;\?\)$/\1Rattle·refusal.specs.Refusal.{told}\4\n\1Rattle·version.specs.Rules.{\3}\4\n\1Rattle·version_entry.specs.Entry.{textAnswer}\4/
s/Rattle·version\.specs\.Rules\.{told}/Rattle·refusal.specs.Refusal.{told}/
s/Rattle·version\.proofs\.entry\b/Rattle·version_entry.proofs.entry/g
s/\bversion::\(version\|pattern\|specifier\)(/version_entry::\1(/g
s/\bjudged (is\(Version\|Pattern\|Specifier\) /textAnswer (is\1 /g
s/\bJudged\b/Outcome/g
