# Prints each line of Rattle sources in which a fault of a stream or of a log may be made without a device: 'FILE:LINE: TEXT', and each
# line of the table that no source needs. The sources have the layout of `rt fmt`.
#
#   awk -v places=TABLE -v devices=PATHS -f places.awk FILE..
#
# In the files whose names match PATHS no error of std's is made.

BEGIN {
  fault = "(ReadFault|WriteFault|FileFault::[A-Za-z]+)"
  while (places != "" && (getline text < places) > 0) {
    rows++
    if (split(text, part, " [|] ") != 3) continue
    row[part[1] " " part[2]] = rows
    said[rows] = text
  }
}
END { for (key in row) if (!(key in needed)) print places ":" row[key] ": no source needs this: " said[row[key]] }

# at each depth the last line, a call over several lines as one, and the one before it in its block
{
  text = $0
  sub(/^ */, "", text)
  sub(/ *\/\/.*/, "", text)
  if (text == "" || text ~ /^(#|ghost |ensures |requires )/) next
  depth = match($0, /[^ ]/) - 1
  if (text ~ /^\)/ && last[FILENAME, depth] ~ /\($/) text = last[FILENAME, depth] text
  else before[FILENAME, depth] = last[FILENAME, depth]
  last[FILENAME, depth] = text
  if (text ~ /\{$/) last[FILENAME, depth + 4] = ""
}

# what a line says apart from types, patterns and the names that a `use` brings in
{
  rest = text
  gsub(/, (Read|Write|File)Fault>/, ">", rest)
  sub(/^FileFault::[A-Za-z]+( [|] FileFault::[A-Za-z]+)* =>/, "=>", rest)
  parent = last[FILENAME, depth - 4]
  if ((text ~ /^(pub )?use / || parent ~ /^(pub )?use /) && text !~ /Fault(::| as )|[ {,]Error[,;}]/) next
  if (text ~ /^pub struct (ReadFault|WriteFault);$/) next
  if (rest ~ /(^|[^A-Za-z_])(ReadFault|WriteFault|FileFault::)/ || text ~ /^(pub )?use .*FileFault as / || text ~ /^type .*Fault/ || text ~ /^impl FileFault/) if (!is_failed()) report()
  if (FILENAME ~ devices && text ~ /(^|[^A-Za-z])(io::Error::|ErrorKind::|Error::)/ && text !~ /^(ErrorKind::[A-Za-z]+|Err\(error\)) => / && text !~ /^Err\(error\) => match io::Error::from\(error\)\.kind\(\) \{$/) report()
  if (FILENAME ~ devices && text ~ /^(pub )?use std::io.*[ {,:]Error[,;}]/) report()
}

function report() { print FILENAME ":" FNR ": " text }

# at this depth a match of a call of a device with which its function begins, or a match or a condition that stands in the table
function is_device(at, header) {
  header = last[FILENAME, at]
  if (header ~ /^match self\.(device|writer)\.(read|write|flush)\([a-z]*\) \{$/) return before[FILENAME, at] == "" && last[FILENAME, at - 4] ~ /^(fn .*)?\{$/
  if (!((FILENAME " " header) in row)) return 0
  needed[FILENAME " " header] = 1
  return 1
}

# the fault is alone what an arm for a failed call answers, or what stands behind a listed condition, or what std's error is reported as
function is_failed(arm) {
  if (text ~ "^(return )?Err\\(" fault "\\);?$") {
    if (parent ~ /^if /) return is_device(depth - 4)
    if (parent ~ /^Err\([A-Za-z_:]+\) => \{$/) return is_device(depth - 8)
    if (before[FILENAME, depth - 4] != "Ok(count) if count > 0 => Ok(count)," || last[FILENAME, depth - 8] !~ /\.write\(/) return 0
    return parent == "_ => {" && is_device(depth - 8)
  }
  arm = text
  if (sub(" => Err\\(" fault "\\),$", "", arm)) {
    if (arm ~ /^Err\([A-Za-z_:]+\)$/) return is_device(depth - 4)
    return parent == "Err(error) => match io::Error::from(error).kind() {" && is_device(depth - 8)
  }
  if (text !~ "^(ErrorKind::OutOfMemory|_) => FileFault::[A-Za-z]+,$") return 0
  return parent ~ /^[A-Z][A-Za-z]+\(match error\.kind\(\) \{$/ && last[FILENAME, depth - 8] ~ /^fn from\(error: io::Error\) -> [A-Za-z]+ \{$/
}
