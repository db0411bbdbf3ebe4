#!/bin/sh
# count.sh DIR [list]: counts, for each of the eight points of the issue "Write this repository as today's Rattle allows", the places in
# DIR/crates/*/src (and, for point 8, in proofs/). Prints a Markdown table: point, what is counted, the command, its number. The number is how
# many lines the command prints when it is run in DIR, or, where the row is marked =, the number that it prints. With `list` it prints the lines of
# each row, under its number. $H is this file's folder, where the helpers fns.py, enums.py, loops.py, twins.py, facts.py and unused.py stand.
# A row below: point, mark, what is counted, command, between tabs.
H=$(cd "$(dirname "$0")" && pwd)
export H
cd "$1" || exit 2
list=$2
[ "$list" = list ] || printf '| row | what is counted | command, in the top folder | number |\n|---|---|---|---|\n'
last=0
i=0
tab=$(printf '\t')
while IFS="$tab" read -r point mark what command; do
    [ "$point" = "$last" ] || i=0
    last=$point
    i=$((i + 1))
    out=$(sh -c "$command" 2>&1 </dev/null)
    if [ "$mark" = = ]; then n=$out; elif [ -z "$out" ]; then n=0; else n=$(printf '%s\n' "$out" | wc -l); fi
    if [ "$list" = list ]; then
        [ "$mark" = = ] && continue
        printf '\n### %s.%s %s: %s\n\n' "$point" "$i" "$what" "$n"
        [ "$n" = 0 ] || printf '%s\n' "$out" | sed 's/^/    /'
    else
        printf '| %s.%s | %s | `%s` | %s |\n' "$point" "$i" "$what" "$(printf '%s' "$command" | sed 's/|/\\|/g')" "$n"
    fi
done <<'ROWS'
1	-	own enums of two variants, a value or a refusal (Result)	python3 $H/enums.py . | grep -E '\{ \w+\(.*\), Refused\(\w+\), \}$'
1	-	own enums of two variants, a value or none (Option)	python3 $H/enums.py . | grep -E '\{ \w+\([^()]*\), \w+, \}$'
1	-	own enums of three variants, one of them a refusal, a failure or none	python3 $H/enums.py . | grep -E '\{ (\w+(\([^()]*\))?, ){3}\}$' | grep -E 'Wrong|Refused|NotOffered|None'
1	-	arms that only hand a refusal or none on (what ? does), on one line	grep -rnE '::(Refused|Wrong|Stranger|NotOffered|Unprinted)(\(\w+\))? => (\w+::(Refused|Stranger|NotOffered|Unprinted|Wrong)|WRONG|NONE|FULL)' crates/*/src
1	-	the same on three lines, with return	grep -rnE -A1 '::(Refused|Wrong)\(\w+\) => \{$' crates/*/src | grep -E 'return \w+::\w+\(\w+\);'
1	-	a refusal told by a literal number	grep -rnE '(Refused|Wrong)\([0-9]+\)|=> [04],$' crates/*/src | grep -v 'unfold\|conditions'
1	-	a number as the type of a refusal: payloads, fields, parameters, results	grep -rnE '(Refused|Wrong)\(u(8|32)\)|refusal: u32,|\bk: u8\b|-> u8$' crates/*/src
1	-	constants that stand in the place of an answer	grep -rnE '^(pub )?const (FULL|PASSED|MASKED|UNDEFINED|DONE|NONE|WRONG|RIGHT|BOTH)\b' crates/*/src
1	-	tests for such a constant	grep -rnE '(<=|<|==) (FULL|PASSED|MASKED|NONE|WRONG|RIGHT|BOTH|UNDEFINED)\b|\b(FULL|PASSED|MASKED|NONE|WRONG|UNDEFINED) (<=|<|==) |65535 < k|== 65535' crates/*/src
1	-	functions that answer such a constant, or (in sharing) 0 for no room	python3 $H/fns.py . -w 'ret in ("usize", "u16") and (re.search(r"(return|=>|;|\}|else \{|^) ?(FULL|PASSED|MASKED|NONE|WRONG|UNDEFINED|65535)\b( \+ \w+| \+ \(k - 1\))?( *[;,}]|$)|passing\(|single\(|only\(|FULL\b|PASSED\b|MASKED\b|NONE\b|WRONG\b", body) or ("sharing" in place and "return 0;" in body))'
1	-	functions that make or take apart several answers packed in one number	python3 $H/fns.py . -w 're.search(r"(%|/|\*) (65536|131072|4294967296|8589934592)\b|\b(65536|131072) \*|\+ 65536\b|\bpack\(|(RIGHT|BOTH|PASSED) \+|- (RIGHT|BOTH|PASSED)|\bpassing\(|[^:]\bleft\([a-z]\)", body) and name not in ("low", "low32", "mask_set", "width", "words_after", "write_number", "read_number", "fold")'
1	-	structs with a flag beside values: bool fields, and u32 fields that are 0 or 1	grep -rnE '^ +(pub )?[a-z_]+: bool,$|^ +pub visible: u32,' crates/*/src | grep -vE 'by_event|readers'
1	-	functions that write and answer a bool, done or not done	python3 $H/fns.py . -w 'ret == "bool" and "&mut" in params'
1	-	a flag parameter that says what the number beside it is	python3 $H/fns.py . -w '"by_event: bool" in params'
1	-	match arms on a code of the stream by its number	grep -rnE '^ +[0-9]+(\.\.=[0-9]+)? => ' crates/*/src
1	-	other tests of a code by its number	grep -rnE '(first\([^=]*\)|\bw|\bc|\bd|\b[st]\[[^]]*\]|word\(t, [^)]*\)) (==|!=) [0-9]+|s\[4\] < 6|7 < s\[4\]|if c < [0-9]' crates/*/src
2	-	groups of functions that are the same but for numbers and types	python3 $H/twins.py .
2	=	functions in these groups	python3 $H/twins.py . | awk -F: '{s += $1} END {print s + 0}'
2	-	groups of the same, the functions and constants that they use taken out too	python3 $H/twins.py . --names
2	=	functions in these groups	python3 $H/twins.py . --names | awk -F: '{s += $1} END {print s + 0}'
2	-	functions that only make local arrays of a size and call one other function with them	python3 $H/fns.py . -w 're.fullmatch(r"(let mut \w+ = \[0(u8|u16|u32)?; \w+\]; )+(let r = \w+\([^;]*\); r|\w+\([^;]*\))", body)'
2	-	constants whose value another constant has too	grep -rnE '^(pub )?const [A-Z_0-9]+: usize = [0-9]{2,};' crates/*/src | awk -F' = ' '{a[$2] = a[$2] "\n" $0; n[$2]++} END {for (k in n) if (n[k] > 1) print substr(a[k], 2)}' | sort -t= -k2
2	-	names that functions of several files have	python3 $H/fns.py . | awk -F'\t' '{a[$2] = a[$2] ", " $1; n[$2]++} END {for (k in n) if (n[k] > 1) print n[k] ": " k substr(a[k], 2)}' | sort -rn
3	-	while loops	grep -rnE '^ *while ' crates/*/src
3	-	of these, loops that count an index by hand	python3 $H/loops.py . | grep ': counted:'
3	-	of these, walks (by what is due or left, by what was read)	python3 $H/loops.py . | grep ': walk:'
3	-	functions that recurse over a count (n - 1, k - 1, more - 1)	python3 $H/fns.py . -w 're.search(r"(?<![\w:.])" + name + r"\([^;{}]*\b(n|k|more) - 1\b", body)'
3	-	for loops (today's form)	grep -rnE '^ *for ' crates/*/src
3	-	iterator and slice methods (today's form)	grep -rnE '\.(iter|iter_mut|all|any|position|enumerate|zip|fill|copy_from_slice|copy_within|chunks|chunks_exact|split_at|sum|fold|first|last|get)\(' crates/*/src
4	-	functions that are only a cast	python3 $H/fns.py . -w 're.fullmatch(r"\(?\w+( % \d+)?\)? as \w+", body)'
4	=	calls of these	grep -rnoE '\b(wide|wide32|wide64|small|narrow|narrow32|low|low32|byte|byte16|byte32|word32|number)\(' crates/*/src | grep -vE 'fn ' | wc -l
4	-	casts in place (today's form)	grep -rnE ' as (u8|u16|u32|u64|usize)\b' crates/*/src
4	-	min, max and subtraction down to 0 by hand	python3 $H/fns.py . -w 're.fullmatch(r"(let c = a \+ b; )?if \w+ (<|<=|==) [\w.()]+ \{ (return )?[^{}]*;? \} (else \{ )?[\w. ()-]+( \})?", body) and name in ("least", "most", "less_16", "argument_in", "cut", "mask_limit", "taken_of", "add")'
4	-	bytes to words or numbers, and back, by hand	grep -rnE '256 \*|% 256|/ 256|\* 256\b' crates/*/src | grep -vE 'requires|ensures|: *//'
4	-	rows of fields or words compared one test after another	python3 $H/fns.py . -w 'ret == "bool" and body.count("return false;") >= 2 and "while" not in body'
4	-	digits of numbers by hand	grep -rnE "b'0' \+" crates/*/src
4	-	structs made of another struct, field by field (three fields or more)	python3 $H/fns.py . -w 'len(re.findall(r"\b(\w+): \w+\.\w+", body)) >= 3 or len(re.findall(r"let (\w+) = \w+\.\1;", body)) >= 3'
4	-	conversions by a trait (today's form)	grep -rnE 'impl.* (From|TryFrom|Display|Ord|PartialOrd|PartialEq)\b.* for |::from\(|\.into\(' crates/*/src
4	-	derives other than Clone, Copy and Drop (today's form)	grep -rnE 'derive\(.*(PartialEq|Eq|Ord|Debug|Default|Hash)' crates/*/src
5	-	facts in the contracts of three or more functions (functions, crates, clause, fact)	python3 $H/facts.py . facts
5	-	of these, facts that functions ask of their arguments	python3 $H/facts.py . facts | grep -P '\trequires\t'
5	-	runs of three or more parameters in three or more functions (functions, crates, run)	python3 $H/facts.py . groups
5	-	functions with eight or more parameters	python3 $H/fns.py . -w 'params.count(": ") >= 8'
5	-	methods (today's form)	grep -rnE '^ +(pub )?fn ' crates/*/src
5	-	ghost fields, type invariants, models (today's form)	grep -rnE '^ +(pub )?ghost \w+:|^ *invariant |impl Model' crates/*/src
6	-	functions with an array and a number beside it that says which of its items count (the first n, the last n, from a to b)	python3 $H/fns.py . -w 're.search(r"requires.*(\((n|k|e|to|b) ≤ length|length \w+\.\w+ ≡ 512 \* n|used ≤ 4096)", con) or re.search(r"(ws|d|s|t|acts|ds|es|rules|buffer): &(mut )?\[\w+\], (n|words): usize|\bn: usize, (ws|words|d|\w+): &mut \[u16\]", params)'
6	-	functions with an array and the place in it that is written next, side by side	python3 $H/fns.py . -w 're.search(r"(out|dst): &mut \[\w+\], at: usize", params)'
6	-	places of the tables, the directory and the store by a number	grep -rnE '212 \+ 9|18 \+ 3|entry\((tb|dir), |tb\[[a0-9]|\bm\[[0-3]\] =|word\(m, [0-9]|3 \+ wide32' crates/*/src | grep -vE 'requires|ensures|: *//'
6	-	functions with three or more lent arrays	python3 $H/fns.py . -w 'params.count("&mut [") >= 3'
6	-	lists searched by hand	python3 $H/fns.py . -w '"while" in body and re.search(r"while [^{]*\{.*return (i|i - from|true|false|i \* 131072 \+ j);", body)'
7	-	functions with a bool parameter	python3 $H/fns.py . -w '": bool" in params'
7	-	functions with a code or a decision as a parameter that chooses what is done	python3 $H/fns.py . -w 're.search(r"\bc: (u16|usize)\b", params) and re.match(r"(join|joined|pair|decide\w*|\w+_two|over|copies|headed_copy)$", name)'
7	-	calls with a literal true or false	grep -rnE '\((.*, )?(true|false)(, .*)?\)' crates/*/src | grep -vE 'requires|ensures|: *//'
7	-	matches that go to a function for each code	perl -0777 -ne 'while(/^( *)match ([^\n]*?) \{\n(.*?)^\1\}/smg){my($m,$b)=($2,$3);my $l=1+(substr($_,0,$-[0])=~tr/\n//);my $k=()=$b=~/^ +[0-9]+(\.\.=[0-9]+)? => \w+\(/mg;print "$ARGV:$l: match $m, $k arms\n" if $k>=3}' $(find crates -path '*/src/*.rt' | sort)
7	-	closures and type or const parameters (today's form)	grep -rnE 'impl Fn|: Fn(Mut|Once)?\(|\bdyn\b|fn \w+<' crates/*/src
8	=	answers	find crates -path '*/proofs/*' -name Answers.antt | xargs grep -hE '^pub [^ ]+ : goal\.' | wc -l
8	=	files of answers	find crates -path '*/proofs/*' -name Answers.antt | wc -l
8	=	lines of proofs	find crates -path '*/proofs/*' -name '*.antt' | xargs cat | wc -l
8	=	of these, lines of answers and invariants	find crates -path '*/proofs/*' \( -name Answers.antt -o -name Invariants.antt \) | xargs cat | wc -l
8	=	files of invariants	find crates -path '*/proofs/*' -name Invariants.antt | wc -l
8	=	files of lemmas (all others)	find crates -path '*/proofs/*' -name '*.antt' ! -name Answers.antt ! -name Invariants.antt | wc -l
8	=	lemmas in them (pub)	find crates -path '*/proofs/*' -name '*.antt' ! -name Answers.antt ! -name Invariants.antt | xargs grep -hE '^pub [^ ]+ :' | wc -l
8	=	lines of specs	find crates -path '*/specs/*' -name '*.antt' | xargs cat | wc -l
8	-	pub lemmas of proofs that nothing else in the repository names	python3 $H/unused.py .
8	=	answers whose right side (40 characters or more) another answer has too, without the first of each	find crates -path '*/proofs/*' -name Answers.antt | xargs grep -hE '^[a-z][^ ]* c = ' | sed 's/^[^ ]* c = //' | awk 'length($0) >= 40 {n[$0]++} END {for (k in n) s += n[k] - 1; print s + 0}'
8	=	lines of src	find crates -path '*/src/*.rt' | xargs cat | wc -l
8	=	functions in src	python3 $H/fns.py . | wc -l
ROWS
