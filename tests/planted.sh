#!/bin/sh
# Tries the comparison itself. Faults are planted in copies of the reference, one at a time, and the copy stands in for the program
# `evaluate`, or for the C library: the comparison has to notice each. It ends with status 1 where one goes unnoticed.
#
#   tests/planted.sh [--cases COUNT]
#
# The C library's part needs c/evaluator.h and is left out without it.
set -eu
cd "$(dirname "$0")/.."

cases=3000
[ "${1:-}" != --cases ] || cases=$2
header=${EVALUATOR_HEADER:-c}
build=target/compare
compile="${CXX:-g++} -std=c++17 -O1"
work=$(mktemp -d)
trap 'rm -rf "$work"' EXIT
mkdir "$work/files"
noticed=0
unnoticed=0

copy_with() { # FILE SED: a copy of the sources with one change
    rm -rf "$work/tests"
    mkdir "$work/tests"
    cp -r tests/reference tests/compare "$work/tests"
    sed -i "$2" "$work/tests/$1"
    if cmp -s "tests/$1" "$work/tests/$1"; then
        echo "planted: no line of $1 is changed by $2" >&2
        exit 2
    fi
}

expect_notice() { # NAME DRIVER OPTIONS...
    name=$1
    shift
    status=0
    "$@" --cases "$cases" --save "$work/failed" --work "$work/files" >"$work/log" 2>&1 || status=$?
    if [ $status = 1 ] && grep -q '^NOT AGREED' "$work/log"; then
        noticed=$((noticed + 1))
        echo "noticed at $(sed -n 's/^\(case [0-9]*\):.*/\1/p' "$work/log"): $name"
    else
        unnoticed=$((unnoticed + 1))
        echo "UNNOTICED: $name"
    fi
}

in_program() { # NAME FILE SED
    copy_with "$2" "$3"
    $compile "$work/tests/reference/evaluator.cpp" "$work/tests/reference/main.cpp" -o "$work/program"
    expect_notice "$1" $build/compare --program "$work/program"
}

in_evaluator() { # NAME SED
    copy_with reference/evaluator.cpp "$2"
    $compile "$work/tests/reference/evaluator.cpp" $build/main.o -o "$work/program"
    expect_notice "$1" $build/compare --program "$work/program"
}

in_library() { # NAME SED
    copy_with compare/stand_in.cpp "$2"
    link_library "$work/tests/compare/stand_in.cpp"
    expect_notice "$1" "$work/driver" --library
}

link_library() { # SOURCE OF THE STAND-IN
    objects=
    for name in compare cases pictures program shapes texts evaluator; do objects="$objects $build/$name.o"; done
    # shellcheck disable=SC2086
    $compile -I"$header" -Dreference=planted "$1" $objects "$work/library.o" "$work/planted.o" -o "$work/driver"
}

echo "without a fault:"
tests/compare.sh --program-only --program $build/reference --cases "$cases"

echo "filters:"
in_evaluator "an alternate filter that opens first" '/weighting = closing(step/{h;d};/weighting = opening(step/{G}'
in_evaluator "an alternate filter with its last pair alone" 's/unsigned step = 1; step/unsigned step = size; step/'
in_evaluator "an empty meet that is the lowest value" 's/greatest_below = kind_.highest()/greatest_below = kind_.lowest()/'
in_evaluator "an empty join that is the highest value" 's/least_above = kind_.lowest()/least_above = kind_.highest()/'
in_evaluator "the first edge at a vertex left out" '/^Weights Filters::join_to_vertices/,/^}/s/for (const std::size_t k : edges_at_vertex)/for (const std::size_t k : edges_at_vertex) if (k > 0)/'
in_evaluator "edges of an opening from the new vertices" '/::half_opening/,/^}/s/join_to_edges(meet_to_vertices(old.edges))/meet_to_edges(join_to_vertices(meet_to_edges(old.vertices)))/'
in_evaluator "edges of a closing as those of an opening" '/::half_closing/,/^}/s/meet_to_edges(join_to_vertices(old.edges))/join_to_edges(meet_to_vertices(old.edges))/'
in_evaluator "sizes of openings in whole rounds" '/::opening(/,/^}/s/size \/ 2/size/'
in_evaluator "no half step in closings of odd size" '/::closing(/,/^}/s/size % 2 == 1/size == 0/'
in_evaluator "dilations of one round too few from 150 on" '/::dilation(/,/^}/s/round < size/round < size - (size > 149)/'
in_evaluator "openings of size 199 for 200" '/^Weighting Filters::opening(/s/$/\n  if (size == 200) return opening(199, weighting);/'
in_evaluator "a join that is a meet" "/case 'J'/s/Kind::join/Kind::meet/"
in_evaluator "a forget that goes back" "/case 'F'/s/break/weighting = held; break/"
in_evaluator "a hold that comes too late" "/case 'H'/s/held = weighting/held = filters.dilation(1, weighting)/"

echo "kinds:"
in_evaluator "a reversal whose lowest is not turned" '/^class Reversed/,/^}/s/return inner_->highest()/return inner_->lowest()/'
in_evaluator "a reversal whose order is not turned" 's/inner_->is_below(y, x)/inner_->is_below(x, y)/'
in_evaluator "a reversal reversed that is a reversal" '/auto inner = kind_of/s/$/ while (name.substr(9, 9) == reversed) { name.remove_prefix(9); inner = kind_of(name.substr(9)); }/'
in_evaluator "classes without class 31" 's/0xFFFFFFFF/0x7FFFFFFF/'
in_evaluator "levels with the high byte first" '/^std::uint32_t number_at/,/^}/s/(8 \* k)/(8 * (width == 2 ? 1 - k : k))/'
in_evaluator "any byte that is not 0 is present" '/^class Presence/,/^}/s/number == 0 || number == 1/number < 256/'
in_evaluator "absent edges that are the join" '/weighting.edges = Filters/s/meet_to_edges/join_to_edges/'

echo "graphs:"
in_evaluator "rule 5 before rule 4" '/return Refusal{4, place/{h;d};/return Refusal{5, place/{G}'
in_evaluator "equal edges accepted" 's/edge.second > before.second/edge.second >= before.second/'
in_evaluator "edges that rise by first end alone" 's/edge.first == before.first \&\& edge.second > before.second/edge.first == before.first/'
in_evaluator "an end that may be n" 's/edge.second < order/edge.second <= order/'
in_evaluator "no limit of edges" 's/ || count > most_edges//'
in_evaluator "one edge too few" 's/most_edges = 4000000/most_edges = 3999999/'
in_evaluator "one vertex too few" 's/most_vertices = 1000000/most_vertices = 999999/'
in_evaluator "one vertex too many" 's/most_vertices = 1000000/most_vertices = 1000001/'
in_evaluator "the number of vertices in 32 bits" 's/^  if (order > most_vertices/  order \&= 0xFFFFFFFF;\n&/'
in_evaluator "rule 2 before rule 1" '/return Refusal{1, 0/{h;d};/return Refusal{2, 0/{G}'

echo "records:"
in_evaluator "edge records of any length" 's/|| !edges_fit/|| (!edges_fit \&\& edges->empty())/'
in_evaluator "empty edge records taken as absent" 's/edges_fit = !edges/edges_fit = !edges || edges->empty()/;s/if (!edges) {/if (!edges || edges->empty()) {/'
in_evaluator "rule 9 that counts edges from 0" 's/Refusal{9, graph.order + j/Refusal{9, j/'
in_evaluator "rule 10 that counts edges from n" 's/Refusal{10, j/Refusal{10, graph.order + j/'
in_evaluator "rule 10 at first ends alone" 's/\.second\]);$/.first]);/'
in_evaluator "rule 10 before rule 9" 's/if (!weight) return Refusal{9, graph.order + j/if (!weight \&\& j + 1 == graph.edges.size()) return Refusal{9, graph.order + j/;s/kind.is_below(\*weight/kind.is_below(weight.value_or(0)/;s/edges.push_back(\*weight)/edges.push_back(weight.value_or(0))/'
in_evaluator "the recipe before the records" '/const auto weighting = open_records/{h;N;d};/&recipe)) return/{s/$/\n  const auto weighting = open_records(kind, std::get<Graph>(graph), vertices, edges);\n  if (const auto *refusal = std::get_if<Refusal>(\&weighting)) return *refusal;/}'

echo "recipes:"
in_evaluator "a tab that separates words" "s/text.find(' ', start)/text.find_first_of(\" \\\\t\", start)/;s/find_first_not_of(' '/find_first_not_of(\" \\\\t\"/"
in_evaluator "rule 13 at the start of the word" 's/word.start + departure_of(word.bytes)/word.start/'
in_evaluator "rule 13 at the end of the word" 's/word.start + departure_of(word.bytes)/word.start + word.bytes.size()/'
in_evaluator "leading zeros accepted" "s/ && bytes\[0\] != '0'//"
in_evaluator "sizes up to 201" 's/largest_size = 200/largest_size = 201/'
in_evaluator "sizes up to 199" 's/largest_size = 200/largest_size = 199/'
in_evaluator "sizes in 8 bits" 's/static_cast<unsigned>(std::stoul(std::string(digits)))/static_cast<std::uint8_t>(std::stoul(std::string(digits)))/'
in_evaluator "sizes of more than three digits in 32 bits" 's/digits.size() > 3 ?/digits.size() > 19 ?/'
in_evaluator "texts of 4,097 bytes" 's/longest_text = 4096/longest_text = 4097/'
in_evaluator "texts of 4,095 bytes at most" 's/longest_text = 4096/longest_text = 4095/'
in_evaluator "97 words" 's/most_words = 96/most_words = 97/'
in_evaluator "95 words at most" 's/most_words = 96/most_words = 95/'
in_evaluator "rule 14 before rule 11" '/return Refusal{11, word/{h;d};/return Refusal{14, word/{G}'
in_evaluator "rule 15 before rule 14" '/return Refusal{14, word/{h;d};/return Refusal{15, word/{G}'
in_evaluator "a second hold accepted" "s/letter == 'H' ? held/letter == 'H' ? false/"
in_evaluator "rule 16 at the last word" 's/Refusal{16, text.size()/Refusal{16, text.find_last_not_of(" ") + 1/'
in_evaluator "rule 11 with part recipe" '/Refusal{11, word.start/s/Part::word/Part::recipe/'

echo "the program:"
in_program "a newline at the end is dropped" reference/main.cpp "/recipe = read_or_stop/s/\$/ if (!recipe.empty() \&\& recipe.back() == '\\\\n') recipe.pop_back();/"
in_program "status 0 for a refusal" reference/main.cpp 's/return 1;/return 0;/'
in_program "outputs made before a refusal" reference/main.cpp 's/^  const auto answer/  std::ofstream(arguments[6], std::ios::app);\n&/'
in_program "outputs changed at a refusal" reference/main.cpp 's/^  const auto answer/  std::ofstream{arguments[7]};\n&/'
in_program "old bytes left at the end of an output" reference/files.hpp 's/std::ofstream file(path, std::ios::binary | std::ios::trunc)/std::fstream file(path, std::ios::binary | std::ios::in | std::ios::out); if (!file) file.open(path, std::ios::binary | std::ios::out)/'
in_program "place and number exchanged" reference/main.cpp "s/refusal->number << ' ' << refusal->place/refusal->place << ' ' << refusal->number/"
in_program "no part on stderr" reference/main.cpp 's/name_of(refusal->part)/"why"/'

if [ -f "$header/evaluator.h" ]; then
    echo "the C library, without a fault:"
    $compile -I"$header" -c tests/compare/library.cpp -o "$work/library.o"
    $compile -Dreference=planted -c tests/reference/evaluator.cpp -o "$work/planted.o"
    link_library tests/compare/stand_in.cpp
    "$work/driver" --library --cases "$cases" --save $build/failed --work "$work/files"

    echo "the C library:"
    in_library "parts one too small" 's/static_cast<uint64_t>(why.part)/static_cast<uint64_t>(why.part) - 1/'
    in_library "a refusal that is not cleared" '/^uint32_t tell/,/^}/s/\*refusal = {0, 0, 0};//'
    in_library "a refusal that is not cleared by the filter" '/^uint32_t evaluator_filter/,/^}/s/\*refusal = {0, 0, 0};//'
    in_library "words set at a refusal" 's/^  const auto answer = reference::read_recipe/  *words = 0;\n&/'
    in_library "words not set" 's/\*words = recipe->size()/(void)words/'
    in_library "a seventh kind" 's/kind >= 6/kind >= 7/;s/kind_names\[kind\]/kind_names[kind % 6]/'
    in_library "reversed kinds that are not" 's/kind_names\[kind\]/kind_names[kind % 3]/'
    in_library "outputs of any length" 's/records.vertices.size() != vertices_out_len/records.vertices.size() > vertices_out_len/'
    in_library "outputs judged before the recipe" 's/^  std::optional<Bytes> edge_records/  if (edges_out_len != graph_len \/ 8 * (kind % 3 == 2 ? 4 : kind % 3 + 1)) return refuse({8, 0, reference::Part::sheet}, refusal);\n&/'
    in_library "outputs changed at a refusal" 's/^  std::optional<Bytes> edge_records/  if (vertices_out_len > 0) vertices_out[0] = 0;\n&/'
    in_library "bytes beside the output" 's/^  std::copy(records.edges.begin/  edges_out[edges_out_len] = 0;\n&/'
    in_library "absent edges taken as empty" 's/if (!edges_absent) edge_records/edge_records/'
else
    echo "*** the C library's part is left out: there is no $header/evaluator.h ***"
fi

echo "planted: $noticed noticed, $unnoticed unnoticed"
[ $unnoticed = 0 ]
