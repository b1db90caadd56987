# From crates marker_steps, marker_cycle, marker to marker_store, marker_steps, marker_cycle, marker, marker_typed, marker_laws. Use: sed -E -i -f marker.sed FILES
# (not crates.txt: a crate that used `marker_steps` for Counts, Warning or Arrays now needs `marker_store` and `arrays`, one that used the typed door
# `marker_typed`, one that used Meaning, Numbered, Fuel, Value `marker_laws`).

# Files, as patches name them.
s#crates/marker_steps/specs/Steps\.antt#crates/marker_steps/specs/inner/Steps.antt#g
s#crates/marker_steps/(src/store\.rt|proofs/store/)#crates/marker_store/\1#g
s#crates/marker/(src/load\.rt|proofs/load/|proofs/Own\.antt)#crates/marker_store/\1#g
s#crates/marker/(src/door\.rt|proofs/door/)#crates/marker_typed/\1#g
s#crates/marker/src/lists\.rt#crates/marker_typed/src/gather.rt#g
s#crates/marker/proofs/lists/#crates/marker_typed/proofs/gather/#g
s#crates/marker/proofs/Typed\.antt#crates/marker_typed/proofs/Gathers.antt#g
s#crates/marker/specs/Store\.antt#crates/marker_typed/specs/inner/Gather.antt#g
s#crates/marker/specs/Fuel\.antt#crates/marker_laws/specs/inner/Fuel.antt#g
s#crates/marker/specs/(Value|Numbers)\.antt#crates/marker_laws/specs/\1.antt#g
s#crates/marker/proofs/(Meaning|Numbered|Fuel)\.antt#crates/marker_laws/proofs/\1.antt#g

# Code.
s/\b(marker|marker_steps)::(Counts|Warning)\b/marker_store::\2/g
s/\bmarker::(Marker|read_marker|read_marker_from|Lists|empty_lists)\b/marker_typed::\1/g

# Types.
s/Rattle·marker_steps\.specs\.declared\.(part\.Counts|warning\.Warning)/Rattle·marker_store.specs.declared.\1/g
s/Rattle·marker_steps·specs\.specs\.declared\.(part\.Counts|warning\.Warning)/Rattle·marker_store.specs.declared.\1/g
s/marker_store\.specs\.declared\.(part|warning)\./marker_store.specs.declared.marks./g
s/Rattle·marker(\.specs|·specs\.specs)\.declared\.lists\.Lists/Rattle·marker_typed\1.declared.gather.Lists/g
s/Rattle·marker(\.specs|·specs\.specs)\.declared\.door\.Marker/Rattle·marker_typed\1.declared.door.Marker/g

# Modules that moved whole.
s/Rattle·marker(\.specs|·specs\.specs)\.Value\b/Rattle·marker_laws\1.Value/g
s/Rattle·marker(\.specs|·specs\.specs)\.Numbers\b/Rattle·marker_laws\1.Numbers/g
s/Rattle·marker(\.specs|·specs\.specs)\.Fuel\b/Rattle·marker_laws\1.inner.Fuel/g
s/Rattle·marker(\.proofs|·proofs\.proofs)\.(Meaning|Numbered|Fuel)\b/Rattle·marker_laws\1.\2/g
s/Rattle·marker(\.proofs|·proofs\.proofs)\.Own\b/Rattle·marker_store\1.Own/g

# Names that stood in one module and stand in several: an import that lists some of them becomes several. One line each time, the rest stays.
# Steps: putComparison, putWarning.
/Rattle·marker_steps(\.specs|·specs\.specs)\.Steps\.\{/{
  s/(\{|, )put(Comparison|Warning)\b/\1@N:put\2/g
}
# Arrays: pad, onto; comparisonNumbers, warningNumbers, allNumbers; comparisonsAs, warningsAs.
/Rattle·marker_steps(\.specs|·specs\.specs)\.Arrays\.\{/{
  s/(\{|, )(pad|onto)\b/\1@F:\2/g
  s/(\{|, )(pad|onto)\b/\1@F:\2/g
  s/(\{|, )(comparisonNumbers|warningNumbers|allNumbers)\b/\1@N:\2/g
  s/(\{|, )(comparisonNumbers|warningNumbers|allNumbers)\b/\1@N:\2/g
  s/marker_steps(\.specs|·specs\.specs)\.Arrays\./marker_steps\1.Marking./
}
# Answer: listsOf, noComparison, noWarning.
/Rattle·marker(\.specs|·specs\.specs)\.Answer\.\{/{
  s/(\{|, )(listsOf|noComparison|noWarning)\b/\1@L:\2/g
  s/(\{|, )(listsOf|noComparison|noWarning)\b/\1@L:\2/g
}
# Store: comparisonIn, warningIn; upTo, gathered, markerOf.
/Rattle·marker(\.specs|·specs\.specs)\.Store\.\{/{
  s/(\{|, )(comparisonIn|warningIn)\b/\1@N:\2/g
  s/(\{|, )(comparisonIn|warningIn)\b/\1@N:\2/g
  s/Rattle·marker(\.specs|·specs\.specs)\.Store\./Rattle·marker_typed\1.inner.Gather./
}
s/Rattle·marker_steps(\.specs|·specs\.specs)\.Steps\b/Rattle·marker_steps\1.inner.Steps/g

# What was marked goes to a line of its own.
:split
/@[FNL]:/{
  /@F:/{
    s/^([^\n]*)\{([^}\n]*)@F:([a-zA-Z]+)([^}\n]*)\}(;?)/use-like \3 \5\n\1{\2\4}\5/
    s/^use-like ([a-zA-Z]+) (;?)\n((ghost )?use )/\3Rattle·arrays.specs.Front.{\1}\2\n\3/
    b clean
  }
  /@N:/{
    s/^([^\n]*)\{([^}\n]*)@N:([a-zA-Z]+)([^}\n]*)\}(;?)/use-like \3 \5\n\1{\2\4}\5/
    s/^use-like ([a-zA-Z]+) (;?)\n((ghost )?use )/\3Rattle·marker_store.specs.Numbers.{\1}\2\n\3/
    b clean
  }
  /@L:/{
    s/^([^\n]*)\{([^}\n]*)@L:([a-zA-Z]+)([^}\n]*)\}(;?)/use-like \3 \5\n\1{\2\4}\5/
    s/^use-like ([a-zA-Z]+) (;?)\n((ghost )?use )/\3Rattle·marker_typed.specs.Lists.{\1}\2\n\3/
    b clean
  }
  b
  :clean
  s/\{, /{/
  s/, , /, /
  s/, \}/}/
  P
  s/^[^\n]*\n//
  /\.\{\};?$/d
  b split
}
