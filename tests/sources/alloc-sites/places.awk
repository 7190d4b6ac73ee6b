# Prints each place of Rattle sources where out of memory could come from anything but a refused request: a line
# 'FILE:LINE: WHY: TEXT' for each. It reads words and signs alone, so each rule says a little more than it would have to.
#
#   awk -v bounds=TABLE -v statuses=PATHS -f places.awk FILE..
#
# In the files whose names match PATHS a number may be the status of a call or of the program: that of out of memory, 4, stands
# in the arm of a fault's Memory alone, and no status is computed.
# TABLE has a line 'FILE | CALL | WHAT BOUNDS IT' for each request for a capacity, and for each call of a function that passes
# a number of its caller's on to one. One that no source makes is printed too.

function trim(text) {
  gsub(/^[ \t]+|[ \t]+$/, "", text)
  return text
}

function without_blanks(text) {
  gsub(/[ \t]/, "", text)
  return text
}

# a function by its crate, or by its type where it is one of those that are all called `new`
function of_crate(path, name) {
  sub(/\/src\/.*/, "", path)
  return name ~ /::/ ? name : path " " name
}

BEGIN {
  asks = "^((with|within)_capacity(_and_hasher)?|(try_)?reserve(_exact)?|(try_)?grow|(try_)?resize(_with)?|insert_many|splice|write_repeated|from_elem|from_fn|repeat(_n)?|cycle|(try_)?collect|from_iter|extend(_from_within)?|allocate)$"
  drops = "^(ok|err|or|ok_or|ok_or_else|unwrap_or_else|unwrap_or_default|map_or|map_or_else|is_ok_and|is_err_and|flatten|flat_map|filter_map|last_os_error)$"
  gives_option = "^(get|get_mut|get_one|copied|checked_[a-z]+|strip_prefix|strip_suffix|met|bound)$"
  derives = "^([(),]|::|thiserror|Clone|Copy|Debug|Default|Drop|Eq|Error|Hash|Ord|PartialEq|PartialOrd)$"
  wide = "[{][^{}]*:[^{}]*[0-9$*]"
  computing = "^((wrapping|saturating|checked|overflowing|unchecked)_[a-z]+|pow|abs_diff|count_ones|count_zeros|leading_zeros|trailing_zeros|min|max|clamp|ilog2|ilog10|isqrt|rotate_left|rotate_right|swap_bytes|reverse_bits|div_ceil|sum|product|count|fold|parse)$"
  numbers = "^(u8|u16|u32|u64|u128|usize|JobNo|MachineNo|Moment)$"
  while (bounds != "" && (getline text < bounds) > 0) {
    rows++
    if (split(text, part, " [|] ") != 3) continue
    name = without_blanks(part[2])
    sub(/\(.*/, "", name)
    if (split(trim(part[1]), place, " of ") == 2) is_asked["crates/" place[2] " " name] = is_public[name] = 1
    key = place[1] " " without_blanks(part[2])
    row_of[key] = rows
    text_of[key] = text
    if (name !~ asks) is_asked[of_crate(place[1], name)] = 1
  }
}

FNR == 1 { if (NR > 1) print_places(); file = FILENAME; tokens = 0; comments = 0; quote = "" }
{ raw[FNR] = $0; take($0) }
END {
  if (NR > 0) print_places()
  for (key in row_of) if (!(key in asked)) print bounds ":" row_of[key] ": no source asks for this: " text_of[key]
}

function add(text) {
  token[++tokens] = text
  line[tokens] = FNR
  said[tokens] = ""
}

# the words and signs of a line: comments are dropped, a string is one sign, of which it is kept what it says
function take(s, word) {
  while (s != "") {
    if (comments > 0) {
      if (!match(s, /\/\*|\*\//)) return
      comments += substr(s, RSTART, 2) == "/*" ? 1 : -1
      s = substr(s, RSTART + 2)
    } else if (quote != "") {
      if (quote == "\"" ? !match(s, /^([^"\\]|\\.)*"/) : !index(s, quote)) {
        said[tokens] = said[tokens] s
        return
      }
      said[tokens] = said[tokens] substr(s, 1, (quote == "\"" ? RLENGTH : index(s, quote)) - 1)
      s = substr(s, quote == "\"" ? RLENGTH + 1 : index(s, quote) + length(quote))
      quote = ""
    } else if (match(s, /^[ \t\r]+/)) {
      s = substr(s, RLENGTH + 1)
    } else if (s ~ /^\/\//) {
      return
    } else if (s ~ /^\/\*/) {
      comments = 1
      s = substr(s, 3)
    } else if (match(s, /^b?r#*"/)) {
      quote = "\"" substr(s, index(s, "r") + 1, RLENGTH - index(s, "r") - 1)
      s = substr(s, RLENGTH + 1)
      add("text")
    } else if (match(s, /^b?"/)) {
      quote = "\""
      word = s ~ /^b/ ? "bytes" : "text"
      s = substr(s, RLENGTH + 1)
      add(word)
    } else if (match(s, /^b?'([^'\\]|\\'|\\[^']+|[\200-\377]+)'/) || match(s, /^[A-Za-z_0-9\200-\377]+/) || match(s, /^(::|=>|->|==|!=|<=|>=|&&)/)) {
      add(substr(s, 1, RLENGTH))
      s = substr(s, RLENGTH + 1)
    } else {
      add(substr(s, 1, 1))
      s = substr(s, 2)
    }
  }
}

# the place of the bracket that closes the one at this place
function closing(i, open) {
  for (open = 0; i <= tokens; i++) {
    if (token[i] ~ /^[([{]$/) open++
    else if (token[i] ~ /^[])}]$/ && --open == 0) return i
  }
  return tokens
}

# the place of the bracket that opens what closes at this place
function opening(i, closed) {
  for (closed = 0; i > 0; i--) {
    if (token[i] ~ /^[])}]$/) closed++
    else if (token[i] ~ /^[([{]$/ && --closed == 0) return i
    else if (closed == 0) return i + 1
  }
  return 1
}

# the name of the function whose call ends at this place
function caller(i) {
  i = opening(i) - 1
  if (token[i] == ">") while (i > 1 && token[i + 1] != "::") i--
  return token[i]
}

# drops attributes, ghost items and clauses, of which nothing runs
function drop_ghosts(i, j, kept) {
  kept = 0
  for (i = 1; i <= tokens; i++) {
    if (token[i] == "#" && token[i + 1] ~ /^[[!]$/) {
      if (token[i + 2] == "path") report(i, "a source that may stand elsewhere")
      if (token[i + 2] == "default" && token[i + 4] == "Memory") report(i, "Memory by default")
      j = closing(token[i + 1] == "[" ? i + 1 : i + 2)
      look_at_attribute(i, j)
      i = j
    } else if (token[i] == "ghost" && token[i + 1] == "use") {
      while (i < tokens && token[i] != ";") i++
    } else if (token[i] == "ghost") {
      for (i++; token[i + 1] ~ /^[:=]$/ && token[i + 2] == "{"; i = closing(i + 2)) continue
    } else {
      j = i
      if (token[i] ~ /^(requires|ensures)$/) {
        j = i + 1
        if (token[j] == "*") j++
        if (token[j] ~ /^[A-Za-z_]/) j++
      }
      if (j > i && token[j] == "{") {
        i = closing(j)
      } else {
        token[++kept] = token[i]
        line[kept] = line[i]
        said[kept] = said[i]
      }
    }
  }
  tokens = kept
  token[tokens + 1] = token[tokens + 2] = token[tokens + 3] = ""
}

# a derived trait of another kind may make any variant, and the text of an error may be as wide as it says
function look_at_attribute(i, end) {
  if (token[i + 2] == "derive") {
    for (i += 3; i < end; i++) if (token[i] !~ derives) report(i, "a derived trait that may make a value")
  } else {
    for (; i < end; i++) if (said[i] ~ wide) report(i, "a text that is filled up")
  }
}

# whether a function answers a number of the kind of a status
function gives_status(i, end) {
  for (; i < end; i++) if (token[i] == "->" && token[i + 1] ~ /^u(8|32)$/ && i + 2 == end) return 1
  return 0
}

# whether a number is that of out of memory, however it is written
function is_memory_number(word) {
  if (word !~ /^[0-9]/) return word ~ /^b?'\\(x04|u[{]0*4[}])'$/
  gsub(/_/, "", word)
  sub(/[ui](8|16|32|64|128|size)$/, "", word)
  return word ~ /^(0*4|0x0*4|0o0*4|0b0*100)$/
}

# whether a sign or a word makes a number of another one; the bar behind a closure's parameters doesn't
function computes(i, word) {
  if (word ~ /^[-+\/%^]$/) return 1
  if (word == "|" && bars) return 0
  if (word ~ /^[*&|]$/) return !in_pattern() && !(word == "|" && (token[i - 1] == word || token[i + 1] == word)) && token[i - 1] ~ /^([A-Za-z_0-9]+|[)\]])$/ && token[i - 1] !~ /^(return|in|if|match|else|mut|move|let)$/
  if (word == "!") return token[i + 1] ~ /^[0-9(A-Z]/ && token[i - 1] !~ /^[a-z]/
  if (word ~ /^[<>]$/) return token[i + 1] == word
  if (word ~ /^(try_)?(from|into)$/) return token[i + 1] == "(" && token[closing(i + 1) - 1] != "status" && caller(closing(i + 1) - 1) != "status" && (token[i - 2] ~ numbers || word ~ /into$/)
  return word == "as" || token[i - 1] ~ /^(\.|::)$/ && token[i + 1] == "(" && word ~ computing
}

function report(i, why) {
  print file ":" line[i] ": " why ": " trim(raw[line[i]])
}

# From here on a frame stands for each bracket that is open: of which kind it is, and whether a pattern stands there.
function in_pattern() {
  if (kind[open] == "match" || kind[open] == "matches") return state[open] == "pattern" || letting[open]
  return letting[open] || within[open]
}

# the match whose pattern or guard is written here, if one is
function arm_here() {
  return kind[open] == "match" && state[open] != "body" ? open : arm[open]
}

function note(word, m) {
  m = arm_here()
  if (m && state[m] == "pattern") pattern[m] = pattern[m] word
  else if (m && state[m] == "guard") guard[m] = guard[m] word
}

function new_arm(m) {
  state[m] = "pattern"
  pattern[m] = guard[m] = ""
  angles[m] = 0
}

function enter(i, inside, m, block) {
  inside = in_pattern()
  m = arm_here()
  block = token[i] == "{" && kind[open] == "match" && state[open] == "body" && begins[open]
  begins[open] = 0
  open++
  bracket[open] = token[i]
  kind[open] = token[i] == "{" ? awaited[open - 1] : ""
  if (token[i] == "{") awaited[open - 1] = ""
  if (token[i] == "(" && token[i - 1] == "!" && token[i - 2] == "matches") kind[open] = "matches"
  begin[open] = kind[open] == "fn" ? header[open - 1] : begin[open - 1]
  type[open] = kind[open] ~ /^(impl|trait)$/ ? type_of(header[open - 1] + 1, i) : type[open - 1]
  awaited[open] = ""
  within[open] = inside
  letting[open] = begins[open] = 0
  arm[open] = kind[open] == "match" ? 0 : m
  is_block[open] = block
  in_function[open] = in_function[open - 1] || kind[open] == "fn"
  of_status[open] = kind[open] == "fn" ? gives_status(header[open - 1], i) : of_status[open - 1]
  from[open] = from[open - 1]
  into[open] = into[open - 1]
  if (kind[open] == "match") new_arm(open)
  if (kind[open] == "matches") state[open] = "value"
  if (kind[open] == "impl") read_header(header[open - 1], i)
}

function leave(block) {
  block = is_block[open]
  if (open > 0) open--
  if (block) new_arm(open)
}

# of an impl of From: from which type, and into which
function read_header(i, end, depth) {
  from[open] = into[open] = ""
  for (; i < end && !(token[i] == "From" && depth == 0); i++) {
    if (token[i] == "<") depth++
    if (token[i] == ">") depth--
  }
  for (i += 2; i < end && !(token[i] == ">" && depth == 0); i++) {
    if (token[i] == "<") depth++
    if (token[i] == ">") depth--
    from[open] = token[i] == "::" ? "" : from[open] token[i]
  }
  into[open] = token[i + 2]
  if (token[i + 1] != "for") from[open] = ""
}

# the type whose functions follow, by the header of an impl or of a trait
function type_of(i, end, depth, name) {
  for (; i < end && token[i] != "where"; i++) {
    if (token[i] == "<") depth++
    if (token[i] == ">") depth--
    if (depth == 0 && token[i] ~ /^[A-Z]/) name = token[i]
  }
  return name
}

# whether out of memory may be made here: from an AllocError, in the arm of a fault of ours that says so, or where a fault is made of one of a
# library that does
function may_make(i, m) {
  if (may_answer() || may_pass_on()) return 1
  if (from[open] == "") return 0
  if (from[open] == "AllocError") return token[i - 2] == into[open] || token[i - 2] == "Self"
  for (m = open; m > 0 && kind[m] != "match"; m--) continue
  if (m == 0 || state[m] != "body") return 0
  if (guard[m] != "") return guard[m] ~ /^[a-z_]+\.is_memory\(\)$/
  return pattern[m] ~ /^([A-Za-z]+::Memory|ErrorKind::OutOfMemory)$/
}

# whether out of memory may be answered here: in the arm of a fault that says so
function may_answer() { return in_arm("^[A-Za-z]+::Memory$") }

# whether it may be passed on here: in the arm of a result whose error says so, alone or before what is handed back
function may_pass_on() { return in_arm("^}?Err\\(([A-Za-z]+::Memory|\\([A-Za-z]+::Memory,_\\))\\)$") }

function in_arm(wanted, m) {
  for (m = open; m > 0 && kind[m] != "match"; m--) continue
  return m > 0 && state[m] == "body" && guard[m] == "" && pattern[m] ~ wanted
}

function look_at_alloc_error(i) {
  if (using) {
    if (token[i + 1] == "as") report(i, "AllocError under another name")
  } else if (token[i - 1] == "for" && token[i + 1] ~ /^({|where)$/) {
    report(i, "an impl for AllocError, where Self is one")
  } else if (item == "type") {
    if (token[i + 1] == ";") report(i, "AllocError under another name")
  } else if (!in_pattern() && (item == "value" || in_function[open])) {
    if (!(token[i + 1] == "::" && token[i + 2] == "from") && token[i + 1] !~ /^[>|]$/ && !may_pass_on()) report(i, "AllocError as a value")
  }
}

function look_at_memory(i) {
  if (using) report(i, "a variant Memory brought in")
  else if (token[i - 1] != "::") {
    if (kind[open] != "enum" && token[i - 1] != ".") report(i, "Memory without its type")
  } else if (!in_pattern() && !may_make(i)) report(i, token[i - 2] "::Memory as a value")
}

# what is done with an error: it is passed on by `from`, by a variant that holds it, or by a closure that uses all of it
function look_at_mapping(i, j, end) {
  end = closing(i + 1)
  j = i + 2
  if (token[i - 1] == "::") report(i, "an error whose way isn't followed")
  if (token[j] == "move") j++
  if (token[j] != "|") {
    if (token[end - 1] != "from" && token[end - 1] !~ /^[A-Z]/) report(i, "an error that isn't passed on by from")
    return
  }
  while (token[++j] != "|" && j < end) if (token[j] ~ /^[a-z_]/ && token[j] != "mut" && !is_used(token[j], j + 1, end)) {
    report(i, "a closure that drops an error")
    return
  }
}

function is_used(name, i, end) {
  while (i < end && token[i] != "|") i++
  for (; i < end; i++) if (token[i] == name) return 1
  return 0
}

# the function whose name stands here
function function_at(i, of_type) {
  return of_crate(file, token[i] == "new" ? of_type "::new" : token[i])
}

# notes where a name is given a value or may be: in a pattern, for a closure or a loop, by `=` and the like, as `mut`, or as a
# function within a function
function note_binding(i, word) {
  if (word == "|" && !in_pattern()) bars = !bars && token[i - 1] ~ /^([(,={;[]|=>|move|return|else)$/
  if (word == "for") looping = 1
  if (word ~ /^(in|\{)$/) looping = 0
  if (word !~ /^[a-z_]/ || token[i - 1] == ".") return
  if (in_pattern() || bars || looping || token[i - 1] == "mut" || token[i - 1] == "fn" && in_function[open] || token[i + 1] == "=" || token[i + 1] ~ /^[-+*\/%&|^<>]$/ && token[i + 2] ~ /^[<>]?=$/)
    bound[word] = bound[word] " " i
}

# what the name at place i stands for: by all that the function says of it before, or as a constant of the file
function given(i, before, text, place, count, j) {
  if (token[i - 1] ~ /^(\.|as)$/ || token[i] !~ /^[A-Za-z_]/ || token[i] == "mut") return ""
  for (j = 1; j <= tokens; j++) if (token[j] == "as" && token[j + 1] == token[i]) text = ", " token[i] " = ?"
  if (token[i] !~ /[a-z]/) {
    for (j = 1; j <= tokens; j++) if (token[j] ~ /^(const|static)$/ && token[j + 1] == token[i]) text = text value_of(j + 1)
    return text
  }
  if (token[i - 1] == "::") return ""
  passes_on = passes_on || is_parameter(token[i])
  count = split(bound[token[i]], place, " ")
  for (j = 1; j <= count; j++) if (place[j] > begin[open] && place[j] < before) {
    if (token[place[j] - 1] == "let" || token[place[j] - 2] == "let" && token[place[j] - 1] == "mut") text = text value_of(place[j])
    else if (token[i + 1] != ".") text = text ", " token[i] " = ?"
  }
  return text
}

function value_of(i) {
  return ", " token[i] " = " meaning(after_equals(i), statement_end(i), "", i)
}

# whether the name is that of a number that the function is called with
function is_parameter(name, i) {
  for (i = begin[open]; i < tokens && token[i] != "{"; i++) if (token[i] == name && token[i + 1] == ":" && token[i + 2] ~ numbers) return 1
  return 0
}

# the words and signs from one place to another, and what the names among them stand for before the second place
function meaning(i, end, closes, before, text, more) {
  for (text = more = ""; i <= end; i++) {
    text = text (text ~ /[A-Za-z_0-9]$/ && token[i] ~ /^[A-Za-z_0-9]/ ? " " : "") token[i]
    more = more given(i, before)
  }
  return text closes more
}

function after_equals(i) {
  while (i < tokens && token[i] != "=") i++
  return i + 1
}

function statement_end(i, depth) {
  for (; i < tokens && !(token[i + 1] == ";" && depth == 0); i++) {
    if (token[i + 1] ~ /^[([{]$/) depth++
    if (token[i + 1] ~ /^[])}]$/) depth--
  }
  return i
}

# the end of the first two arguments
function second_comma(i, end, depth, commas) {
  end = closing(i)
  for (i++; i < end; i++) {
    if (token[i] ~ /^[([{]$/) depth++
    if (token[i] ~ /^[])}]$/) depth--
    if (token[i] == "," && depth == 0 && ++commas == 2) return i - 1
  }
  return end - 1
}

# a request for a capacity: the call with its arguments has to stand in the table, and where it asks for what its function
# is called with, so have the calls of that function
function look_at_request(i, name, call, start) {
  passes_on = 0
  start = token[i] == "new" ? i - 2 : i
  call = meaning(start, name == "with_capacity" ? second_comma(i + 1) : closing(i + (name == "vec!" ? 2 : 1)) - 1, name == "vec!" ? "]" : ")", i)
  asked[file " " without_blanks(call)] = 1
  if (!(file " " without_blanks(call) in row_of)) report(i, "a capacity that isn't among the stated bounds, " call)
  if (passes_on && !(function_at(begin[open] + 1, type[open]) in is_asked)) report(i, "a capacity that is passed on by a function, and none of its calls is among the stated bounds")
}

function is_filled(i, end, depth, count) {
  end = closing(i)
  for (i++; i < end; i++) {
    if (token[i] ~ /^[([{]$/) depth++
    if (token[i] ~ /^[])}]$/) depth--
    if (token[i] == ";" && depth == 0) count++
  }
  return count > 1
}

# an unsafe block that is a call of Box::from_raw, and nothing else
function makes_a_box_alone(i) {
  return token[i] == "unsafe" && token[i + 1] == "{" && token[i + 2] == "Box" && token[i + 3] == "::" && token[i + 4] == "from_raw" && token[i + 5] == "(" && closing(i + 5) + 1 == closing(i + 1)
}

function look_at(i, word) {
  if (word == "AllocError") look_at_alloc_error(i)
  else if (word == "Memory") look_at_memory(i)
  else if (tolower(said[i]) ~ /out of memory/ && !may_answer()) report(i, "the line of out of memory")
  else if (said[i] ~ wide && token[i] != "bytes") report(i, "a text that is filled up")
  else if (word == "OutOfMemory" && !in_pattern()) report(i, "OutOfMemory as a value")
  else if (word ~ /^(AllocFailed|SpawnError|from_raw_os_error)$/) report(i, "what an AllocError could be made of")
  else if (word == "Error" && token[i - 1] == "::" && token[i - 2] == "fmt") report(i, "what an AllocError could be made of")
  else if (word == "default" && token[i - 1] == "::") report(i, "a default value, which may be a fmt::Error")
  else if (word ~ /^(unsafe|macro_rules|include|transmute)$/ && !makes_a_box_alone(i)) report(i, "code whose words don't say what it makes")
  else if (word ~ /^(forget|leak|ManuallyDrop)$/) report(i, "a value that is never dropped")
  else if (word == "is_memory" && token[i - 1] == "fn") report(i, "an error of ours that says that it is out of memory")
  else if (word == "Error" && using && from_fmt) report(i, "what an AllocError could be made of")
  else if (word ~ /^(map_err|or_else)$/ && token[i + 1] == "(") look_at_mapping(i)
  else if (word ~ drops && (token[i - 1] == "." && token[i + 1] == "(" || token[i - 1] == "::")) report(i, "a call that may drop an error")
  else if (word == "unwrap_or" && caller(i - 2) !~ gives_option) report(i, "a call that may drop an error")
  else if (word ~ asks && (using ? word ~ /^(from|repeat)/ : token[i - 1] == "::" && token[i + 1] != "(" || token[i - 1] == "." && token[i + 1] == "::")) report(i, "a request for a capacity that isn't written as a call")
  else if (word ~ asks && token[i + 1] == "(" && token[i - 1] ~ /^(\.|::)$/) look_at_request(i, word)
  else if (token[i + 1] == "(" && token[i - 1] != "fn" && (function_at(i, token[i - 2]) in is_asked || word in is_public)) look_at_request(i, word)
  else if (word ~ /^(small)?vec$/ && token[i + 1] == "!" && is_filled(i + 2)) look_at_request(i, "vec!")
  else if (word == "*" && using && (of_a_type || from_fmt)) report(i, "all variants brought in")
  else if (word == "as" && using && from_fmt && token[i - 1] ~ /^(fmt|self)$/) report(i, "fmt under another name")
}

# whether the value of a field is computed
function is_computed(i, depth) {
  for (; i < tokens && !(depth == 0 && token[i] ~ /^[,})]$/); i++) {
    if (token[i] ~ /^[([{]$/) depth++
    if (token[i] ~ /^[])}]$/) depth--
    if (computes(i, token[i])) return 1
  }
  return 0
}

# in a file of statuses: the one of out of memory by its number, by a name of ours, or computed; a constant usize is none
function look_at_status(i, word) {
  if (word ~ /^[A-Z0-9_]*MEMORY[A-Z0-9_]*$/) report(i, "a name for the status of out of memory")
  else if (is_memory_number(word) && !in_pattern() && !may_answer()) report(i, "the status of out of memory as a number")
  else if ((of_status[open] || item == "value") && computes(i, word) || word == "status" && token[i + 1] == ":" && is_computed(i + 2)) report(i, "a status that is computed")
}

# what an item, a let, a match or an arm begins or ends with
function follow(i, word) {
  if (word == "use") using = 1
  else if (word == "type") item = "type"
  else if (word ~ /^(const|static)$/ && token[i + 1] != "fn" && token[i - 1] !~ /^['*]$/) item = "const"
  else if (word == "=" && item == "const") item = token[i - 1] == "usize" ? "size" : "value"
  else if (word == ";" && bracket[open] != "[") { using = of_a_type = from_fmt = 0; item = ""; awaited[open] = ""; letting[open] = 0 }
  else if (word == "fn") { awaited[open] = "fn"; item = ""; header[open] = i }
  else if (word ~ /^(impl|trait)$/ && awaited[open] != "fn") { awaited[open] = word; header[open] = i }
  else if (word ~ /^(match|enum)$/) awaited[open] = word
  else if (word == "let") letting[open] = 1
  if (word == "=") letting[open] = 0
  if (using && word ~ /^[A-Z]/ && token[i + 1] == "::") of_a_type = 1
  if (using && word == "fmt") from_fmt = 1
}

# at the level of the arms of a match, or of the words within matches!
function turn(word, last_word) {
  if (word == "=>" && state[open] != "body") { state[open] = "body"; begins[open] = 1; return 1 }
  if (word == "if" && state[open] == "pattern") { state[open] = "guard"; return 1 }
  if (word == "," && kind[open] == "matches" && state[open] == "value") { state[open] = "pattern"; return 1 }
  if (state[open] == "body") {
    if (word == "<" && last_word ~ /^(::|[A-Z].*)$/) angles[open]++
    if (word == ">" && angles[open] > 0) angles[open]--
    if (word == "," && angles[open] > 0) return 0
  }
  if (word == "," && kind[open] == "match" && state[open] == "body") { new_arm(open); return 1 }
  return word == "," && kind[open] == "match" && pattern[open] == ""
}

function print_places(i, word) {
  drop_ghosts()
  open = 0
  kind[0] = bracket[0] = awaited[0] = item = from[0] = into[0] = type[0] = ""
  using = of_a_type = from_fmt = letting[0] = within[0] = arm[0] = in_function[0] = of_status[0] = begins[0] = begin[0] = bars = looping = 0
  split("", bound)
  for (i = 1; i <= tokens; i++) {
    word = token[i]
    look_at(i, word)
    if (statuses != "" && file ~ statuses) look_at_status(i, word)
    note_binding(i, word)
    if (word ~ /^[([{]$/) {
      note(word)
      enter(i)
    } else if (word ~ /^[])}]$/) {
      leave()
      note(word)
    } else {
      follow(i, word)
      if (kind[open] ~ /^match/ && turn(word, token[i - 1])) continue
      begins[open] = 0
      note(word)
    }
  }
}
