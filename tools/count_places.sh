#!/bin/sh
# Counts lines that may be places of the design pass (docs/DESIGN-PASS.md): run at the top of the repository, or with
# another checkout as its argument. Each line is a place to look at, not a verdict.
cd "${1:-.}" || exit 1
src=$(git ls-files 'crates/*/src/*.rt')
count() { printf '%6s  %s\n' "$2" "$1"; }
c() { grep -hE "$1" $src | grep -vE "${2:-^$}" | wc -l; }

count '1a enums' "$(c '^\s*(pub )?enum ')"
count '1b refusals in an Option' "$(c '\) -> Option<\w*Fault')"
count '1c results and options taken apart by hand' "$(c '(Ok|Err|Some)\(\w*(\(\))?\) => (return )?(Ok|Err|Some)\(|None => (return )?(None|Err\()|Err\(_\) => (return )?(Err|None)|^\s+return Err\(\w+\);')"
count '1d numbers for refusals and kinds' "$(c 'Result<[^;]*, u8>|_kind: u8|kind_number\(\) -> u8$|fn \w*number\(&?self\) -> u8$|Refused\(u8\)|-> \(Closed<S>, u8\)|-> \(S, (u8|\[u8)|_number<.*-> u8|^\) -> u8 \{')"
count '1e flags' "$(c '^\s+(pub )?\w+: bool,$')"
count '2 runs of six lines that stand again elsewhere' "$(awk 'FNR == 1 { n = 0 } { l = $0; gsub(/^[ \t]+|[ \t]+$/, "", l); if (l == "" || l ~ /^(ghost )?use /) next; n++; w[n % 6] = l; if (n >= 6) { k = ""; for (i = 1; i <= 6; i++) k = k "\n" w[(n + i) % 6]; c[k]++ } } END { for (k in c) if (c[k] > 1) t += c[k]; print t + 0 }' $src)"
count '3 loops over a range, while, loop' "$(c "for \w+ in [^&]*\.\.|^\s*('\w+: )?(while|loop)\b")"
count '3b places stepped by hand inside another loop' "$(c '^\s+\w+ \+= ')"
count '4a types without PartialEq' "$(c 'derive\(' 'PartialEq')"
count '4b clear, copy, compare and convert by hand' "$(c 'fn (same|clear|zero|turn|keep|keep_all|all_zero|allowed|is_digit|position|bit_of|put_cell|write_answer|overwrite|move_all|copy_block|block_at|load|save|plain|entered_number|listed_number)\b')"
clauses() { grep -hE '^\s+(requires|ensures)' $src | sed -E 's/^\s+(requires|ensures) (\w+ )?\{/\1 {/' | sort | uniq -c | awk '$1 >= 3'; }
count '5a clauses that stand in three or more functions' "$(clauses | wc -l)"
count '5b how often these stand' "$(clauses | awk '{n += $1} END {print n + 0}')"
count '5c members of a store or a fault spelled out together' "$(grep -ohE 'S.Store.count S.Store.protected|BlockFault.number \w+.Fault.BlockFault.block|[LR].Store.count R.Store.count' $src | wc -l)"
count '6 a length beside a buffer' "$(c '^\s+(pub )?len: (u8|usize),$')"
count '7 function pointers, dyn' "$(c '\bdyn\b|: fn\(')"
count '8a lines of proofs' "$(git ls-files 'crates/*/proofs/*.antt' | xargs cat | wc -l)"
count '8b answers and invariants' "$(git ls-files 'crates/*/proofs/*/Answers.antt' 'crates/*/proofs/*/Invariants.antt' | xargs cat | grep -cE '^[a-z][a-zA-Z0-9_-]*( [a-zA-Z_0-9]+)* =')"
