# From crates url, specifiers, extras, line to line_url, line_specifiers, line_extras, extras, line, line_typed, line_laws, and names of spans. Use:
# sed -E -i -f line.sed FILES (not crates.txt: line-crates.sed), after ground.sed.

# Files, as patches name them.
s#crates/url/#crates/line_url/#g
s#crates/specifiers/src/item\.rt#crates/line_specifiers/src/specifier.rt#g
s#crates/specifiers/src/list\.rt#crates/line_specifiers/src/specifiers.rt#g
s#crates/specifiers/specs/Item\.antt#crates/line_specifiers/specs/Specifier.antt#g
s#crates/specifiers/specs/Reading\.antt#crates/line_specifiers/specs/Specifiers.antt#g
s#crates/specifiers/proofs/item/#crates/line_specifiers/proofs/specifier/#g
s#crates/specifiers/proofs/list/#crates/line_specifiers/proofs/specifiers/#g
s#crates/specifiers/#crates/line_specifiers/#g
s#crates/extras/src/item\.rt#crates/line_extras/src/extra.rt#g
s#crates/extras/src/list\.rt#crates/line_extras/src/extras.rt#g
s#crates/extras/specs/Item\.antt#crates/line_extras/specs/Extra.antt#g
s#crates/extras/specs/Reading\.antt#crates/line_extras/specs/Extras.antt#g
s#crates/extras/proofs/item/#crates/line_extras/proofs/extra/#g
s#crates/extras/proofs/list/#crates/line_extras/proofs/extras/#g
s#crates/extras/proofs/Within\.antt#crates/line_extras/proofs/Within.antt#g
s#crates/extras/proofs/Entries\.antt#crates/extras/proofs/Laws.antt#g
s#crates/spans/specs/Reading\.antt#crates/spans/specs/Listing.antt#g
s#crates/line/src/door\.rt#crates/line_typed/src/door.rt#g
s#crates/line/proofs/door/url_of/#crates/line/proofs/figures/url_of/#g
s#crates/line/proofs/door/#crates/line_typed/proofs/door/#g
s#crates/line/proofs/quick/figures_of/#crates/line/proofs/figures/figures_of/#g
s#crates/line/proofs/Laws\.antt#crates/line_typed/proofs/Laws.antt#g
s#crates/line/proofs/Written\.antt#crates/line/proofs/Quickly.antt#g
s#crates/line/proofs/Own\.antt#crates/line_laws/proofs/Own.antt#g
s#crates/line/proofs/Passes\.antt#crates/line_laws/proofs/Program.antt#g
s#crates/line/specs/Ready\.antt#crates/line/specs/inner/Ready.antt#g

# Code.
s/\buse url::/use line_url::/g
s/\buse specifiers::/use line_specifiers::/g
s/\buse extras::extras_at;/use line_extras::extras_at;/g
s/\buse line::(Requirement|SpanList|read_line);/use line_typed::\1;/g
s/(^|[^A-Za-z_])line::(read_line\(|Requirement|SpanList)/\1line_typed::\2/g

# Modules of the URL, the specifiers, the extras.
s/Rattle·url\b/Rattle·line_url/g
s/Rattle·specifiers((·specs)?\.specs)\.Reading\b/Rattle·line_specifiers\1.Specifiers/g
s/Rattle·specifiers((·specs)?\.specs)\.Item\b/Rattle·line_specifiers\1.Specifier/g
s/Rattle·specifiers((·specs)?\.specs)\.declared\.item\b/Rattle·line_specifiers\1.declared.specifier/g
s/Rattle·specifiers\b/Rattle·line_specifiers/g
s/Rattle·extras((·specs)?\.specs)\.Reading\b/Rattle·line_extras\1.Extras/g
s/Rattle·extras((·specs)?\.specs)\.Item\b/Rattle·line_extras\1.Extra/g
s/Rattle·extras((·proofs)?\.proofs)\.(Within|Laws)\b/Rattle·line_extras\1.\3/g
s/Rattle·extras((·proofs)?\.proofs)\.Entries\.\{extras-few\}/Rattle·line_extras\1.Laws.{extras-few}/g
s/Rattle·extras((·proofs)?\.proofs)\.Entries\b/Rattle·extras\1.Laws/g

# Spans: `onGood` is refusal's; the reading of a list is a `Listing`; a list over the front of an array is arrays' `onto`, of spans `spansOnto`.
s/Rattle·spans\.specs\.Reading\.\{onGood\}/Rattle·refusal.specs.Answer.{onGood}/
/Rattle·spans((·specs)?\.specs)\.Reading\.\{/{
  s/([{ ])Reading([,}])/\1Listing\2/
}
s/Rattle·spans((·specs)?\.specs)\.Reading\b/Rattle·spans\1.Listing/g
s/Rattle·spans((·proofs)?\.proofs)\.Arrays\.\{load-over\}/Rattle·spans\1.Arrays.{load-onto}/
s/Rattle·spans((·proofs)?\.proofs)\.Arrays\.\{write-front\}/Rattle·arrays.proofs.Front.{onto-front}/
/Rattle·spans((·specs)?\.specs)\.Flat\.\{/{
  s/([{ ])over([,}])/\1spansOnto\2/
  /[{ ]write[,}]/{
    s/^(.*)$/\1\n\1/
    s/^([^\n]*)Rattle·spans[^\n{]*\.Flat\.\{[^}\n]*\}/\1Rattle·arrays.specs.Front.{onto}/
    P
    s/^[^\n]*\n//
    s/([{ ])write(, )?/\1/
    s/, \}/}/
    /Flat\.\{\}/d
  }
}
s/^(unfolding .*[^A-Za-z-])flat write([^A-Za-z-]|$)/\1flat onto\2/

# Line.
s/Rattle·line((·specs)?\.specs)\.declared\.door\.Url\b/Rattle·line\1.declared.figures.Url/g
s/Rattle·line((·specs)?\.specs)\.declared\.quick\.Figures\b/Rattle·line\1.declared.figures.Figures/g
s/Rattle·line((·specs)?\.specs)\.declared\.door\.(Requirement|SpanList)\b/Rattle·line_typed\1.declared.door.\3/g
s/Rattle·line((·specs)?\.specs)\.Line\.\{(filled|listOf|filled, listOf|listOf, filled)\}/Rattle·line_typed\1.Requirement.{\3}/
s/Rattle·line((·specs)?\.specs)\.Ready\b/Rattle·line\1.inner.Ready/g
s/Rattle·line((·proofs)?\.proofs)\.Passes\b/Rattle·line_laws\1.Program/g
s/Rattle·line((·proofs)?\.proofs)\.Own\.\{told-own\}/Rattle·line_typed\1.Own.{told-own}/
s/Rattle·line((·proofs)?\.proofs)\.Own\b/Rattle·line_laws\1.Own/g
s/Rattle·line((·proofs)?\.proofs)\.Written\b/Rattle·line\1.Quickly/g
s/Rattle·line((·proofs)?\.proofs)\.Laws\b/Rattle·line_typed\1.Laws/g
