#!/usr/bin/env texlua
-- pgtex: from the log of a LaTeX run with \usepackage{pg} to the pages that pg chooses, as commands for pg.sty.
--
--   NAME.log has the galley; pgtex runs `pg run` on it, a part at a time, and writes NAME.pgx.
--
-- A part ends where no float may go on: at \clearpage, \cleardoublepage, a chapter. The parts are paginated one by
-- one and joined.

collectgarbage("setpause", 400) -- time is dearer here than memory

local VERSION = "1.0"
local DATE = "2026-11-30"
local FORMAT = 4 -- of NAME.pgx

local USAGE = "usage: pgtex [--keep] [--latex COMMAND] NAME"
local HELP = USAGE .. [[


Reads NAME.log, the log of a LaTeX run of a document with \usepackage{pg}, lets the program pg choose the pages, and
writes NAME.pgx. LaTeX, run again, makes these pages. Where the galley and the style have not changed, nothing is
written.

  --keep            keep what pg read and what it wrote: NAME-1.pgg and NAME-1.pages of the first part, and so on; NAME.pgg
                    and NAME.pages of all, joined
  --latex COMMAND   the LaTeX for draft runs, where the option lengths asks for them; the engine of NAME.log otherwise
  --help            print this
  --version         print the version

The program is `pg` in the path, or what the variable PG names. Where pg refuses, `pg_tell` has the words, if it stands
beside pg or in the path, or PG_TELL names it. The status is 0 where NAME.pgx is that of the galley, 1 where no
pagination is legal or pg refuses, 2 for wrong words.]]

local function say(...) io.stdout:write("pgtex: ", string.format(...), "\n") end
local function complain(...) io.stderr:write("pgtex: ", string.format(...), "\n") end

---------------------------------------------------------------- words
local name, keep, latex
do
  local i = 1
  while arg[i] do
    local word = arg[i]
    if word == "--keep" then keep = true
    elseif word == "--help" or word == "-h" then print(HELP) os.exit(0)
    elseif word == "--version" then print("pgtex " .. VERSION .. " " .. DATE) os.exit(0)
    elseif word == "--latex" and arg[i + 1] then i = i + 1 latex = arg[i]
    elseif word:sub(1, 1) == "-" or name then io.stderr:write(USAGE, "\n") os.exit(2)
    else name = word end
    i = i + 1
  end
  if not name then io.stderr:write(USAGE, "\n") os.exit(2) end
  name = name:gsub("%.tex$", ""):gsub("%.log$", "")
end

local function quoted(word)
  if os.type == "windows" then return '"' .. word .. '"' end
  return "'" .. word:gsub("'", "'\\''") .. "'"
end
-- a word of a command that is told
local function in_shell(word) return word:match("^[%w_./+-]+$") and word or quoted(word) end

-- what is stale is never used: where pgtex fails, there are no pages
local temporary = {}
local draft_log, kept_log = nil, name .. ".pgtex-draft.log" -- of the draft whose lines are told: kept where pgtex fails
-- a file, or a folder with its files
local function remove(path)
  if lfs.isdir(path) then
    for file in lfs.dir(path) do os.remove(path .. "/" .. file) end
    lfs.rmdir(path)
  else os.remove(path) end
end
local function clean()
  for _, path in ipairs(temporary) do remove(path) end
end
local function stop(...)
  complain(...)
  os.remove(name .. ".pgx")
  os.remove(name .. ".pgi")
  os.remove(kept_log)
  if draft_log then os.rename(draft_log, kept_log) end
  clean()
  os.exit(1)
end
local function temporary_name()
  local file = name .. ".pgtex-" .. #temporary + 1
  temporary[#temporary + 1] = file
  return file
end
local function read_file(file)
  local f = io.open(file, "rb")
  if not f then return nil end
  local text = f:read("a")
  f:close()
  return text
end
-- whole, or not at all
local function write_file(file, text)
  local new = file .. ".new"
  local f, why = io.open(new, "wb")
  if not f or not f:write(text) or not f:close() then stop("%s cannot be written: %s", file, why or "no room") end
  os.remove(file)
  local ok, why_not = os.rename(new, file)
  if not ok then stop("%s cannot be written: %s", file, why_not) end
end

---------------------------------------------------------------- numbers, as TeX prints them
local known = {}
local function units(word) -- of a number of points
  if known[word] then return known[word] end
  local sign, whole, fraction = word:match("^(-?)(%d+)%.(%d+)$")
  local a = 0
  for i = math.min(#fraction, 17), 1, -1 do a = (a + (fraction:byte(i) - 48) * 131072) // 10 end
  local value = 65536 * math.tointeger(tonumber(whole)) + (a + 1) // 2
  known[word] = sign == "-" and -value or value
  return known[word]
end
local function integer(word) return math.tointeger(tonumber(word)) end
local function points(value) return string.format("%.2fpt", value / 65536) end

---------------------------------------------------------------- the log
-- TeX breaks the lines of its log. In a listing a line that does not begin with a point goes on; so does one behind
-- a line of just the width.
local function log_width(engine, longest)
  kpse.set_program_name(engine)
  local width = tonumber(kpse.var_value("max_print_line")) or 79
  return longest > width and math.huge or width
end

local KIND = {
  hbox = "box", vbox = "box", rule = "box", glue = "glue", leaders = "glue", cleaders = "glue", xleaders = "glue",
  kern = "kern", penalty = "penalty", insert = "insert",
}
local function new_item(line, at)
  local word = line:match("^\\(%a+)")
  local item = { line = line, deep = {}, at = at, kind = KIND[word] or "carry" }
  if item.kind == "penalty" then item.penalty = integer(line:match("^\\penalty (-?%d+)")) or 0
  elseif item.kind == "insert" then
    local class, size = line:match("^\\insert(%d+), natural size (-?[%d.]+)")
    item.class, item.size = integer(class), size and units(size)
  elseif item.kind == "box" then
    local height, depth = line:match("^\\%a+%((-?[%d.]+)%+(-?[%d.]+)%)")
    item.height, item.depth = height and units(height), depth and units(depth)
  end
  return item
end

-- the lines of a log, and how long the longest of the last listing is
local function lines_of(text)
  local lines, longest, is_listing = {}, 0, false
  for line in text:gmatch("([^\n]*)\n?") do
    line = line:gsub("\r$", "")
    lines[#lines + 1] = line
    if line == "pg: galley begins" then is_listing, longest = true, 0
    elseif line == "pg: galley ends" then is_listing = false
    elseif is_listing and #line > longest then longest = math.max(longest, utf8.len(line) or #line) end
  end
  return lines, longest
end
-- what pg.sty tells: of a paragraph, of a class, or by a key
local function read_told(log, line)
  local n, count, how = line:match("^pg: paragraph (%d+) lines (%d+) (%a+)$")
  local class, word = line:match("^pg: class (%d+) (.*)$")
  local key, value = line:match("^pg: (%a+) (.*)$")
  if n then
    if how == "text" then log.paragraphs[integer(n)] = integer(count) end
  elseif class then log.words[integer(class)] = word
  elseif key then log[key] = value end
end
-- what TeX tells of its memory: how many words it has, how many it used, and where they did not suffice
local function read_memory(log, line, at)
  local size = line:match("^! TeX capacity exceeded, sorry %[main memory size=(%d+)%]")
  local used, all = line:match("^ (%d+) words of memory out of (%d+)$")
  if size then log.full_at, log.memory, log.used = at, integer(size), integer(size)
  elseif used then log.memory, log.used = integer(all), integer(used) end
end
local function with_more_memory(log)
  return string.format("%s -cnf-line=extra_mem_bot=%d %s", log.command, log.memory - 1000000, in_shell(name))
end
-- the last run holds a little more than the first
local function tell_memory(log)
  if log.full_at then
    complain("%s:%d: TeX had no more memory: run it with more, as `%s'", log.file, log.full_at, with_more_memory(log))
  elseif log.memory and log.used > 0.85 * log.memory then
    say("TeX used %d of its %d words of memory, and takes long to find room: run it with more, as `%s'", log.used, log.memory,
      with_more_memory(log))
  end
end
-- a line of the listing: of the root, of an item or within it, or what TeX wrote on a line of its own
local function read_listed(log, line, at)
  local item = log.items[#log.items]
  if line:sub(1, 6) == "\\vbox(" then log.root = line
  elseif not log.root then return
  elseif line:sub(1, 2) == ".." then item.deep[#item.deep + 1] = line:sub(2)
  elseif line:sub(1, 1) == "." then
    item = new_item(line:sub(2), at)
    local class, mark = item.line:match("^\\marks(%d+){(.*)}$")
    if class and class == log.markers then item.marker = mark end
    log.items[#log.items + 1] = item
  elseif line ~= "" and item then
    if #item.deep > 0 then item.deep[#item.deep] = item.deep[#item.deep] .. line
    else log.items[#log.items] = new_item(item.line .. line, item.at) end
  end
end

local function read_log(file)
  local text = read_file(file)
  if not text then stop("there is no %s: run LaTeX first", file) end
  local lines, longest = lines_of(text)
  local log = { file = file, items = {}, paragraphs = {}, words = {} }
  local first = lines[1] or ""
  log.machine = first:match("XeTeX") and "xe" or first:match("Lua") and "lua" or "pdf"
  log.command = first:match("preloaded format=([%w-]+)") or log.machine .. "latex"
  local width = log_width(log.machine .. "tex", longest)
  local function is_full(line) return #line == width or #line > width and utf8.len(line) == width end
  local is_inside, i = false, 1
  while lines[i] do
    local line, at = lines[i], i
    local is_told = line:sub(1, 4) == "pg: "
    if is_inside or is_told then
      while is_full(lines[i]) and lines[i + 1] do i = i + 1 line = line .. lines[i] end
    end
    if line == "pg: galley begins" then
      is_inside = true
      log.items, log.root, log.ended = {}, nil, false
    elseif line == "pg: galley ends" then is_inside = false log.ended = true
    elseif line:sub(1, 2) == "**" and not log.typed then
      while is_full(lines[i]) and lines[i + 1] do i = i + 1 line = line .. lines[i] end
      log.typed = line:sub(3)
    elseif is_told then read_told(log, line)
    elseif is_inside then read_listed(log, line, at)
    else read_memory(log, line, at) end
    i = i + 1
  end
  if log.full_at and not log.ended then
    stop("%s:%d: TeX had no more memory: run it with more, as `%s'", file, log.full_at, with_more_memory(log))
  end
  if not log.ended then stop("%s has no galley: does the document use pg, and did LaTeX come to its end?", file) end
  if not log.root then stop("%s shows no galley: is there a shrink without bound (\\vss) in the text?", file) end
  log.engine = log.machine .. (log.format == "plain" and "tex" or "latex")
  return log
end

---------------------------------------------------------------- pg
local program = os.getenv("PG") or ""
if program == "" then program = "pg" end
-- runs a program over files: its status, the first line that it said, and whether pg-try gave it up
local function run(command, words, output)
  local errors = temporary_name()
  local line = quoted(command) .. " " .. words .. " > " .. quoted(output) .. " 2> " .. quoted(errors)
  if os.type == "windows" then line = '"' .. line .. '"' end
  local ok, how, status = os.execute(line)
  if type(ok) == "number" then status = ok > 255 and ok // 256 or ok end -- as LuaTeX tells it
  if ok == true then status = 0 end
  local said = read_file(errors) or ""
  os.remove(errors)
  return status, said:match("[^\n]*"), status ~= 0 and said:match("did not end within the time limit") ~= nil
end
-- output, or nil and the message
local function run_pg(words, output)
  local status, said, is_late = run(program, words, output)
  if is_late then stop("%s ran out of time: the machine is busy; wait, or build pg", program) end
  if status == 0 or status == 1 then return read_file(output) end
  if status == 127 then
    return nil, program .. " is not found: it has to be in the path, or named by the variable PG (tex/pg-try of the repository needs no build)"
  end
  return nil, said ~= "" and said or string.format("%s ended with the status %s: is it in the path, or named by PG?",
    program, tostring(status))
end

local LIST_FAULT = {
  [1] = "there is no galley",
  [2] = "the line is not as its kind of line has to be; was the log edited?",
  [3] = "no list has such an item; was the log edited?",
  [4] = "a number is missing",
  [5] = "a size of 16384 points or more, or demerits out of range",
  [6] = "the list was cut",
  [7] = "a shrink without bound between the lines, as of \\vss: give it a finite amount",
  [8] = "a rule whose height or depth is open",
  [9] = "a footnote or float of negative size: put what it holds into a box",
  [10] = "the markers of a choice are out of place: does something stand within \\lengths that ends a paragraph?",
  [11] = "the versions of a paragraph have other footnotes",
  [12] = "more than 1048576 items",
}
local STYLE_FAULT = {
  [1] = "is not TOML", [2] = "is missing", [3] = "is not known", [4] = "is of another kind",
  [5] = "is out of range", [6] = "has an entry below the one before", [7] = "has the number of an earlier class",
  [8] = "is empty",
}
-- pg_tell, which may stand beside pg, knows more words than these: the variable PG_TELL names it
local function find_teller()
  local named = os.getenv("PG_TELL")
  local beside = (program:match("^.*[/\\]") or "") .. "pg_tell"
  return named and named ~= "" and named or lfs.isfile(beside) and beside or "pg_tell"
end
-- a value of the object that pg_tell writes
local function value_of(object, key)
  local text = object:gsub("\\\\", "\1"):gsub('\\"', "\2"):match('"' .. key .. '":"(.-)"')
  return text and text:gsub("\2", '"'):gsub("\1", "\\") or nil
end
-- what is at fault, what to do and the line, where pg_tell is there and finds in these files what pg has said
local function told_of(said, style_file, galley)
  local output = temporary_name()
  run(find_teller(), "--json " .. quoted(style_file) .. " " .. quoted(galley), output)
  local object = read_file(output) or ""
  if not object:match('^{"version":1,') or "pg: " .. (value_of(object, "said") or "") ~= said then return {} end
  return { cause = value_of(object, "cause"), act = value_of(object, "act"), takes = value_of(object, "takes"),
    line = object:match('"line":(%d+)') }
end
-- what the keys take that have a least and a greatest number
local RANGE = {
  version = "1 to 3", columns = "1 or 2", tolerance = "0 to 10000", line = "0 to 10000", max_looseness = "0 to 100",
  fitness = "0 to 100000000", count = "0 to 4", number = "0 to 254", distance = "1 to 9 numbers from 0 to 100000000",
  ["runs.demerits"] = "0 to 100000000", ["float_column.demerits"] = "1 to 100000000",
  runs = "1 to 5 tables", classes = "up to 4 tables, and up to 8 from version 2 on",
  height = "more than 0.0 and less than 16384.0", ragged = "more than 0.0 and less than 16384.0",
}
local function range_of(key)
  local path = key:gsub("%[%d+%]", "")
  local range = RANGE[path] or RANGE[path:match("[%w_]+$")]
  return range and ": it takes " .. range or ": pg_tell tells the range"
end
-- the line of a style on which a key as runs[0].extra stands, or its table where that stands on one line, or the table's head
local function line_of(file, key)
  local owner, place, word = key:match("^([%w_-]+)%[?(%d*)%]?%.([%w_-]+)$")
  local header, count, head = nil, {}, nil
  for at, line in ipairs(lines_of(read_file(file) or "")) do
    local begun, set = line:match("^%s*%[+%s*([%w_-]+)%s*%]"), line:match("^%s*([%w_.-]+)%s*=")
    if begun then header, count[begun] = begun, (count[begun] or -1) + 1 end
    local is_there = header == owner and (not owner or place == "" or integer(place) == count[owner])
    if set and (is_there and set == (word or key) or not header and (set == key or set == owner)) then return at end
    if begun and is_there then head = at end
  end
  return head
end
-- what pg said, in words; read: the items that it read, from line 2 on
local function in_words(said, style, log, read, told)
  -- where it stands, what is at fault, what the line says, what to do
  local function sentences(place, cause, ...)
    local out = { place .. ": " .. cause:gsub("%.$", "") }
    for _, word in ipairs { ... } do if word ~= "" then out[#out + 1] = word end end
    return table.concat(out)
  end
  local act = told.act and ". " .. told.act or ""
  local line, fault = said:match("line (%d+): list fault (%d+)$")
  if line then
    local item = read[integer(line) - 1]
    return sentences(log.file .. (item and ":" .. item.at or ""), told.cause or LIST_FAULT[integer(fault)] or "list fault",
      item and " [" .. item.line .. "]" or "", act)
  end
  local number, key = said:match("style fault (%d+) at (.*)$")
  if number and told.cause then
    local place = style .. (told.line and ":" .. told.line or "") .. (key == "-" and "" or ": " .. key)
    return sentences(place, told.cause, told.takes and ". It takes: " .. told.takes or "", act)
  elseif number then
    local line = line_of(style, key)
    local cause = STYLE_FAULT[integer(number)] or "is at fault"
    if key == "-" then return style .. " " .. cause .. ", or not UTF-8: pg_tell tells the line" end
    return string.format("%s%s: %s %s%s", style, line and ":" .. line or "", key, cause, number == "5" and range_of(key) or "")
  end
  local class = said:match("class (%d+) is not in the style")
  if class then
    for _, item in ipairs(read) do
      if item.class == integer(class) then
        return string.format("%s:%d: an \\insert of class %s, which %s does not have; pg.sty writes LaTeX's footnotes and floats alone",
          log.file, item.at, class, style)
      end
    end
  end
  if said:match("floats are too many") then return "a part has more than 4096 floats: put a \\clearpage between" end
  return said
end

---------------------------------------------------------------- the style
-- TeX puts quotes around a name with a blank; what it writes stands beside its log, and it looks there first
local function read_style(file, log)
  file = file:gsub('"', "")
  local folder = log.file:match("^.*[/\\]")
  if folder and lfs.isfile(folder .. file) then file = folder .. file end
  local text = read_file(file)
  if not text then
    if file:match("[^/\\]*$") == name:match("[^/\\]*$") .. ".toml" then stop("there is no style %s: run LaTeX first", file) end
    stop("there is no style %s, which the option style of the package names", file)
  end
  local style = { file = file, text = text, floats = {}, notes = {}, is_float = {}, runs = {} }
  local place, table_name = style, ""
  for line in text:gmatch("[^\n]+") do
    local header = line:match("^%s*%[+%s*([%w_]+)%s*%]")
    if header then
      table_name, place = header, {}
      if header == "runs" then style.runs[#style.runs + 1] = place
      elseif header == "classes" then style.classes = style.classes or {} table.insert(style.classes, place)
      else style[header] = place end
    else
      local key, value = line:match("^%s*([%w_]+)%s*=%s*\"?([^\"#]*)\"?")
      if key then place[key] = value:match("^(.-)%s*$") end
    end
  end
  for _, class in ipairs(style.classes or {}) do
    local number = integer(class.number or "")
    if number and class.kind == "float" then
      class.number = number
      style.floats[#style.floats + 1], style.is_float[number] = class, class
    elseif number then style.notes[number] = class end
  end
  table.sort(style.floats, function(a, b) return a.number < b.number end)
  return style
end
-- of a dimension, or of a gap without what it gives
local function size_of(place, key)
  local word = place and place[key]
  local size = word and word:match("^-?%d+%.%d+")
  return size and units(size) or 0
end

---------------------------------------------------------------- blocks and parts
-- A block is an item, or a paragraph in several versions. Those that pgtex itself has marked are hidden from pg.
local function is_discardable(item) return item.kind == "glue" or item.kind == "kern" or item.kind == "penalty" end

local function make_blocks(items)
  local blocks, choice, paragraph = {}, nil, nil
  for _, item in ipairs(items) do
    local of_lua = item.line:match("^\\special{pgtex:paragraph (%d+)}")
    if of_lua then paragraph = integer(of_lua) -- shown by pg.lua, and no item of the galley
    elseif item.line == "\\special{pg:choice}" then choice, paragraph = { versions = {}, paragraph = paragraph }, nil
    elseif choice and item.line:match("^\\special{pg:variant ") then
      choice.versions[#choice.versions + 1] = { marker = item.line, looseness = integer(item.line:match("variant (-?%d+)")) }
    elseif choice and item.line == "\\special{pg:end}" then
      blocks[#blocks + 1], choice = choice, nil
    elseif choice and #choice.versions > 0 then table.insert(choice.versions[#choice.versions], item)
    else blocks[#blocks + 1] = { item = item } end
  end
  if choice then stop("a choice is not closed: does a page begin within \\lengths?") end
  return blocks
end
local function has_box(block) return block.versions ~= nil or block.item.kind == "box" end
local function has_insert(block)
  for _, item in ipairs(block.versions and block.versions[1] or { block.item }) do
    if item.kind == "insert" then return true end
  end
end

-- parts: first and last block, the columns of a page, and what LaTeX does in front of it. A part ends with the break
-- that is forced behind its last box; what waits for its page behind that waits for the next part.
local function make_parts(blocks, columns)
  local parts, first, before = {}, 1, nil
  local boxes, inserts, forced = false, false, nil
  local function close(last)
    parts[#parts + 1] = { first = first, last = last, before = before, columns = columns, floats_alone = not boxes }
    first, before, boxes, inserts, forced = last + 1, nil, false, false, nil
  end
  for b, block in ipairs(blocks) do
    local marker = block.item and block.item.marker
    if marker == "clear" or marker == "cleardouble" then
      if boxes or inserts then close(forced or b - 1) end
      -- of several behind one another the strongest counts
      if #parts > 0 or marker == "cleardouble" then before = before == "cleardouble" and before or marker end
    elseif marker and marker:match("^columns ") then columns = marker:match("%d+")
    elseif has_box(block) then boxes, forced = true, nil
    elseif has_insert(block) then inserts, forced = true, nil
    elseif (block.item.penalty or 0) <= -10000 then forced = forced or b end
  end
  if boxes or inserts then close(#blocks)
  elseif #parts > 0 then parts[#parts].last = #blocks end
  return parts
end

-- what pg reads of a part: of markers only barriers in front of its last box, nothing that TeX drops in front of its first
-- box and behind a forced break, and the marks and writes behind its last box in front of the glue that TeX drops there
local function show_to_pg(part, blocks)
  local shown, tail, seen = {}, {}, false
  local last_box = 0
  for b = part.first, part.last do if has_box(blocks[b]) then last_box = b end end
  for b = part.first, part.last do
    local block = blocks[b]
    local item = block.item
    if item and item.marker then
      if item.marker == "barrier" and seen and b < last_box then shown[#shown + 1] = b end
    elseif has_box(block) then seen = true shown[#shown + 1] = b
    elseif is_discardable(item) then
      if b > last_box then tail[#tail + 1] = b
      elseif seen then
        shown[#shown + 1] = b
        seen = not item.penalty or item.penalty > -10000
      end
    else shown[#shown + 1] = b end
  end
  for _, b in ipairs(tail) do shown[#shown + 1] = b end
  part.shown, part.last_box = shown, last_box
end
-- how pg is told that no float may pass
local BARRIER = "\\special{pg:flush}"
-- the lines that pg reads, and the item of each behind the first
local function galley_text(shown, blocks, root)
  local lines, read = { root }, {}
  local function mark(line, item) lines[#lines + 1], read[#read + 1] = "." .. line, item end
  local function put(item)
    mark(item.marker and BARRIER or item.line, item)
    for _, deep in ipairs(item.deep) do mark(deep, item) end
  end
  for _, b in ipairs(shown) do
    local block = blocks[b]
    if block.versions then
      mark("\\special{pg:choice}", block.versions[1][1])
      for _, version in ipairs(block.versions) do
        mark(version.marker, version[1])
        for _, item in ipairs(version) do if not item.marker then put(item) end end
      end
      mark("\\special{pg:end}", block.versions[1][1])
    else put(block.item) end
  end
  return table.concat(lines, "\n") .. "\n", read
end

---------------------------------------------------------------- the page text
local function counts(word)
  local list = {}
  if word ~= "-" then for digits in word:gmatch("%d+") do list[#list + 1] = integer(digits) end end
  return list
end
-- glue of a text that is not of its own width; where pg leaves a page as it is, TeX stretches a \vfil on it
local function is_set_glue(line)
  local natural, set = line:match("^%.\\%a+%b() (-?[%d.]+).*, set (-?[%d.]+)$")
  if not natural then natural, set = line:match("^%.\\%a+ (-?[%d.]+).*, set (-?[%d.]+)$") end
  return natural and (natural ~= set or line:match(" plus %-?[%d.]+fi") ~= nil)
end
-- a line of a column's top, bottom or notes, which show their gaps where the style is of version 3
local function read_in_area(column, area, line)
  local class, note = line:match("^%.\\insert(%d+), natural size ([%d.]+)")
  local kind, size, set = line:match("^%.\\glue%((%a+)%) ([%d.]+).*, set ([%d.]+)$")
  local last = column.gaps[#column.gaps]
  if kind then
    column.gaps[#column.gaps + 1] = { area = area, kind = kind, size = units(size), set = units(set) }
  elseif note and area == "notes" then
    column.notes, column.has_notes[integer(class)] = column.notes + units(note), true
    if last and last.kind == "skip" then last.class = integer(class) end
  end
end
local function read_pages(text)
  local pages, page, column, area = {}, nil, nil, nil
  for line in text:gmatch("[^\n]+") do
    if line:sub(1, 1) == "." then
      if area == "text" then column.is_set = column.is_set or is_set_glue(line)
      elseif area ~= "wide" then read_in_area(column, area, line) end
    else
      local w = {}
      for word in line:gmatch("%S+") do w[#w + 1] = word end
      if w[1] == "page" then
        page = { side = w[4], run = integer(w[6]), wide = counts(w[8]), columns = {} }
        pages[#pages + 1] = page
      elseif w[1] == "column" then
        column = { from = { integer(w[4]), integer(w[5]), integer(w[6]) }, to = { integer(w[8]), integer(w[9]), integer(w[10]) },
          above = counts(w[12]), below = counts(w[14]), picks = counts(w[16]), notes = 0, has_notes = {}, gaps = {} }
        page.columns[#page.columns + 1] = column
      elseif w[1] == "set" then column.goal, column.total = units(w[3]), units(w[5])
      elseif w[1] == "area" then area = w[2] end
    end
  end
  return pages
end

---------------------------------------------------------------- where nothing is legal
local function largest_room(style)
  local extra = 0
  for _, run in ipairs(style.runs) do extra = math.max(extra, size_of(run, "extra")) end
  return size_of(style, "height") + extra
end
local function explain(part, blocks, style, log)
  local room, depth = largest_room(style), size_of(style, "maxdepth")
  local found = {}
  local function note(item, ...) found[#found + 1] = string.format("%s:%d: ", log.file, item.at) .. string.format(...) end
  local seen = {}
  for b = 1, part.last do
    local block = blocks[b]
    for _, item in ipairs(block.versions and block.versions[1] or { block.item }) do
      if item.kind == "insert" and item.size then
        seen[item.class] = (seen[item.class] or 0) + 1
        local limit = style.notes[item.class] and size_of(style.notes[item.class], "limit")
        if b >= part.first then
          if item.size > room then
            note(item, "%s %d is %s high, and a page %s", log.words[item.class] or style.is_float[item.class] and "float" or "note",
              seen[item.class], points(item.size), points(room))
          elseif limit and item.size > limit then
            note(item, "note %d is %s high, and at most %s may be", seen[item.class], points(item.size), points(limit))
          end
        end
      elseif b >= part.first and item.kind == "box" and item.height and item.height + math.max(item.depth - depth, 0) > room then
        note(item, "a box is %s high, which no page breaks, and a page %s", points(item.height + item.depth), points(room))
      end
    end
  end
  return found
end
-- how far a part can be paginated: the least front of it that cannot
local function least_illegal_front(part, blocks, style_file, log)
  local galley, output = temporary_name(), temporary_name()
  local function legal(n)
    local front = {}
    for i = 1, n do front[i] = part.shown[i] end
    write_file(galley, (galley_text(front, blocks, log.root)))
    local text = run_pg("run " .. quoted(style_file) .. " " .. quoted(galley), output)
    return text and not text:match("^no legal pagination") and text
  end
  local low, high, pages = 0, #part.shown, 0
  while high - low > 1 do
    local middle = (low + high) // 2
    local text = legal(middle)
    if text then low, pages = middle, integer(text:match("^pages (%d+)")) else high = middle end
  end
  return blocks[part.shown[high]], pages
end

---------------------------------------------------------------- all parts
-- the page that a part begins on, by its number
local function number_at(part, blocks, number)
  if part.before == "cleardouble" and number % 2 == 0 then number = number + 1 end
  for b = part.first, part.last do
    local block = blocks[b]
    local marked = block.item and block.item.marker and block.item.marker:match("^page (%d+)$")
    if marked then number = integer(marked) end
    if has_box(block) then break end
  end
  return number
end
local function width_of(log) return log.root:match("x(-?[%d.]+)") end
-- floats that stand between two \clearpage without text: as many to a column as it holds
local function pages_of_floats(part, blocks, style)
  local pages, height, sep = {}, size_of(style, "height"), size_of(style.top, "sep")
  local free, left = 0, 0 -- columns that the last page may still have, and the room in its last one
  local function add_page(wide)
    pages[#pages + 1] = { side = "S", run = 0, wide_floats = wide, columns = {} }
    free = integer(part.columns)
  end
  local function add_column()
    table.insert(pages[#pages].columns, { floats = {}, below = {}, picks = {} })
    free, left = free - 1, height
  end
  local function put(item)
    if style.is_float[item.class].area == "wide" then
      add_page { item }
      add_column()
      free, left = 0, 0
      return
    end
    if left < item.size then
      if free == 0 then add_page {} end
      add_column()
    end
    local columns = pages[#pages].columns
    table.insert(columns[#columns].floats, item)
    left = left - item.size - sep
  end
  for b = part.first, part.last do
    local item = blocks[b].item
    if item and item.kind == "insert" and style.is_float[item.class] then
      if item.size > height then return nil, item end
      put(item)
    end
  end
  return pages
end
-- floats in the order of their classes, and how many of each class they are
local function sorted_floats(floats, style)
  local sorted, numbers = {}, {}
  for k, class in ipairs(style.floats) do
    numbers[k] = 0
    for _, item in ipairs(floats) do
      if item.class == class.number then sorted[#sorted + 1], numbers[k] = item, numbers[k] + 1 end
    end
  end
  return sorted, numbers
end
-- the lines of an area, with its gaps where the style is of version 3
local function put_floats(out, area, floats, style)
  if #floats > 0 then out[#out + 1] = "area " .. area end
  for k, item in ipairs(floats) do
    out[#out + 1] = "." .. item.line
    for _, deep in ipairs(item.deep) do out[#out + 1] = "." .. deep end
    local kind = k < #floats and "sep" or "gap"
    local size = style[area][kind]
    if style.version == "3" then out[#out + 1] = string.format(".\\glue(%s) %s, set %s", kind, size, size:match("^[%d.]+")) end
  end
end
-- what pg would write of them
local function text_of_floats(pages, style, log)
  local out = { string.format("pages %d cost 0 width %s", #pages, width_of(log)) }
  local function list(numbers) return #numbers > 0 and table.concat(numbers, ",") or "-" end
  for number, page in ipairs(pages) do
    local wide
    wide, page.wide = sorted_floats(page.wide_floats, style)
    out[#out + 1] = string.format("page %d side S run 0 wide %s", number, list(page.wide))
    put_floats(out, "wide", wide, style)
    for c, column in ipairs(page.columns) do
      local above
      above, column.above = sorted_floats(column.floats, style)
      out[#out + 1] = string.format("column %d from 0 0 0 to 0 0 0 top %s bottom - picks -", c, list(column.above))
      out[#out + 1] = "without text demerits 0"
      put_floats(out, "top", above, style)
    end
  end
  return table.concat(out, "\n") .. "\n"
end
-- the style for a part: its text, or another one, but for the side of the first page and the columns
local function style_for(style, text, first, columns)
  if text == style.text and first == style.first and columns == style.columns then return style.file end
  local file = temporary_name()
  text = text:gsub("(\n%s*first%s*=%s*)\"%a+\"", "%1\"" .. first .. "\"", 1)
  write_file(file, (text:gsub("(\n%s*columns%s*=%s*)%d+", "%1" .. columns, 1)))
  return file
end
-- in a style of pg.sty a float may wait three pages; where many come together, eight
local function longer(text) return (text:gsub("(distance = %[0, [%d, ]+)", "%1" .. string.rep(", 100000000", 5))) end
-- A text of pg.sty without the classes of floats that are not called, and without the waits of a float that cost more than
-- `most`, so that pg takes less time. With it come the classes that are left, and what the least of the other waits costs.
local function shorter(text, style, called, most)
  local used, least, out = {}, math.huge, {}
  local function waits(list)
    local kept = {}
    for digits in list:gmatch("%d+") do
      local cost = integer(digits)
      if cost > most then least = math.min(least, cost) break end
      kept[#kept + 1] = digits
    end
    return "distance = [" .. table.concat(kept, ", ") .. "]"
  end
  local from = text:find("[[classes]]", 1, true)
  out[1] = text:sub(1, from - 1)
  while from do
    local behind = text:find("[[classes]]", from + 1, true)
    local class = text:sub(from, behind and behind - 1)
    local number = integer(class:match("\nnumber = (%d+)"))
    if not style.is_float[number] then out[#out + 1] = class
    elseif called[number] then
      used[number] = true
      out[#out + 1] = class:gsub("distance = %[(.-)%]", waits)
    end
    from = behind
  end
  return table.concat(out), used, least
end
-- the page text of such a style with the counts of all classes
local function with_all_classes(text, style, used)
  local function all(front, word)
    local given, list, n = counts(word), {}, 0
    for k, class in ipairs(style.floats) do
      if used[class.number] then n = n + 1 end
      list[k] = used[class.number] and given[n] or 0
    end
    return front .. (#list > 0 and table.concat(list, ",") or "-")
  end
  return (("\n" .. text):gsub("(\npage [^\n]* wide )(%S+)", all)
    :gsub("(\ncolumn [^\n]* top )(%S+)", all):gsub("(\ncolumn [^\n]* bottom )(%S+)", all):sub(2))
end
-- What fits on no page is reason enough; else it is looked for how many pages can be made.
local function tell_illegal(part, which, blocks, style, style_file, log)
  local reasons = explain(part, blocks, style, log)
  for _, line in ipairs(reasons) do complain("%s", line) end
  if #reasons > 0 then stop("no legal pagination%s", which) end
  local block, pages = least_illegal_front(part, blocks, style_file, log)
  local item = block and (block.item or block.versions[1][1])
  complain("no legal pagination%s: %d pages can be made, and nothing behind %s:%d%s", which, pages, log.file, item and item.at or 0,
    item and " [" .. item.line .. "]" or "")
  local galley = name .. (which:match(" %d+$") or ""):gsub(" ", "-") .. ".pgg"
  stop("which numbers of the style would help: %spg_tell %s %s", keep and "" or "pgtex --keep " .. in_shell(name) .. "; ",
    in_shell(style.file), in_shell(galley))
end
-- What pg writes of a part by a text of pg.sty, or nothing where no pagination is legal, or where it refuses, which is told. No cost of such a
-- style is below 0. So what costs less than the waits that are left out is best by the whole text as well, and what costs
-- more says which of them are wanted.
local WAITS = 1000000
local function best_of(text, part, first, blocks, style, galley)
  local called, output = {}, temporary_name()
  for _, b in ipairs(part.shown) do
    for _, item in ipairs(blocks[b].versions and blocks[b].versions[1] or { blocks[b].item }) do
      if item.class then called[item.class] = true end
    end
  end
  local most, cost, least, out, used, other = WAITS, nil, nil, nil, nil, nil
  repeat
    other, used, least = shorter(text, style, called, most)
    out = run_pg("run " .. quoted(style_for(style, other, first, part.columns)) .. " " .. quoted(galley), output)
    if not out then return nil, true end
    cost = integer(out:match("^pages %d+ cost (%d+)") or "")
    if cost and cost < least then return with_all_classes(out, style, used) end
    most = cost or math.huge
  until least == math.huge
end
-- what pg writes of a part that has text
local function text_of_part(part, which, number, blocks, style, log)
  local galley, output = temporary_name(), temporary_name()
  write_file(galley, part.lines)
  local first = style.first ~= "single" and (number % 2 == 1 and "right" or "left") or style.first
  local texts = {}
  if style.text:match("^# written by pg.sty") and #explain(part, blocks, style, log) == 0 then
    texts = { style.text, longer(style.text) }
  end
  for _, text in ipairs(texts) do
    local out, is_refused = best_of(text, part, first, blocks, style, galley)
    if out then return out end
    if is_refused then break end
  end
  local style_file = style_for(style, style.text, first, part.columns)
  local out, said = run_pg("run " .. quoted(style_file) .. " " .. quoted(galley), output)
  if not out then stop("%s", in_words(said, style.file, log, part.read, told_of(said, style_file, galley))) end
  if out:match("^no legal pagination") then tell_illegal(part, which, blocks, style, style_file, log) end
  return out
end
local function paginate(parts, blocks, style, log)
  local number = integer(log.page or "1")
  for k, part in ipairs(parts) do
    number = number_at(part, blocks, number)
    if part.floats_alone then
      local pages, item = pages_of_floats(part, blocks, style)
      if not pages then
        stop("no legal pagination: %s:%d: a %s is %s high", log.file, item.at, log.words[item.class] or "float", points(item.size))
      end
      part.pages, part.text = pages, text_of_floats(pages, style, log)
    else
      part.text = text_of_part(part, #parts > 1 and " of part " .. k or "", number, blocks, style, log)
      part.pages = read_pages(part.text)
    end
    number = number + #part.pages
  end
end

---------------------------------------------------------------- breaks of TeX
-- The list as TeX has it in the last run, with the versions that pg picked; the place of each block in it.
local function flatten(parts, blocks)
  local flat, picked = {}, {}
  for _, part in ipairs(parts) do
    local picks = {}
    for _, page in ipairs(part.pages) do
      for _, column in ipairs(page.columns) do for _, v in ipairs(column.picks) do picks[#picks + 1] = v end end
    end
    local n = 0
    for b = part.first, part.last do
      local block = blocks[b]
      block.offset = #flat
      if block.versions then
        n = n + 1
        block.pick = picks[n] or 0
        picked[#picked + 1] = block
        for _, item in ipairs(block.versions[block.pick + 1]) do flat[#flat + 1] = item end
      else flat[#flat + 1] = block.item end
    end
    part.finish = #flat
  end
  return flat, picked
end
-- \vsplit to a height far below 0 takes the list up to its first break (TeX: The Program, 970), and pg.sty first cuts
-- the list at each penalty that forces a page. pieces[n] is how many pieces the first n items make, where one ends there.
local function count_pieces(flat)
  local all, count = #flat, 0
  local pieces = { [0] = 0 }
  local function is_break(place) -- between the first `place` items and what follows
    local item, behind = flat[place + 1], flat[place + 2]
    if item.kind == "glue" then return not is_discardable(flat[place])
    elseif item.kind == "kern" then return behind and behind.kind == "glue"
    else return item.kind == "penalty" and item.penalty < 10000 end
  end
  -- discardable items in front of a box go; what else stands there is a piece of its own
  local function prune(place, finish)
    local kept = false
    while place < finish and flat[place + 1].kind ~= "box" do
      place = place + 1
      kept = kept or not is_discardable(flat[place])
    end
    if kept then count = count + 1 end
    if kept and place == finish then pieces[finish] = count end
    return place
  end
  local place = 0
  while place < all do
    place = prune(place, all)
    local finish = math.min(place + 1, all)
    while finish < all and not (flat[finish + 1].kind == "penalty" and flat[finish + 1].penalty <= -10000) do
      finish = finish + 1
    end
    while place < finish do
      repeat place = place + 1 until place == finish or is_break(place)
      count = count + 1
      pieces[place] = count
      place = prune(place, finish)
    end
  end
  return pieces
end

---------------------------------------------------------------- NAME.pgi
-- For LuaTeX: each item by its kind and sizes, so that pg.lua can say which one is another; starts[n] is the page whose
-- text begins behind n items.
local function described_items(flat, starts)
  local out = {}
  local function length(word)
    local number, order = word:match("^(-?[%d.]+)(f?i?l*)$")
    return units(number) .. order
  end
  for k, item in ipairs(flat) do
    if starts[k - 1] then out[#out + 1] = "page " .. starts[k - 1] end
    local text = item.line
    if text:match("^\\rule") then text = "rule"
    elseif item.kind == "box" then text = string.format("box %d %d", item.height, item.depth)
    elseif item.kind == "glue" then
      local width = text:match("^\\%a+%b() (-?[%d.]+)") or text:match("^\\%a+ (-?[%d.]+)")
      local stretch, shrink = text:match(" plus (-?[%d.]+f?i?l*)"), text:match(" minus (-?[%d.]+f?i?l*)")
      text = string.format("glue %d %s %s", units(width), stretch and length(stretch) or "0", shrink and length(shrink) or "0")
    elseif item.kind == "kern" then text = "kern " .. units(text:match("(-?[%d.]+)"))
    elseif item.kind == "penalty" then text = "penalty " .. item.penalty
    elseif item.kind == "insert" then text = string.format("insert %d %d", item.class, item.size)
    else text = "carry" end
    out[#out + 1] = text
  end
  return table.concat(out, "\n") .. "\n"
end

---------------------------------------------------------------- the floats
-- Each class has its floats in the order of their calls, and gives them away one by one.
local function new_deck(flat, style)
  local deck = { classes = style.floats, sizes = {}, dealt = {} }
  for _, class in ipairs(style.floats) do deck.sizes[class.number], deck.dealt[class.number] = {}, 0 end
  for _, item in ipairs(flat) do
    if item.kind == "insert" and deck.sizes[item.class] then table.insert(deck.sizes[item.class], item.size) end
  end
  return deck
end
-- the next floats of each class: as commands, their heights added up, and how many they are
local function deal(deck, numbers)
  local list, height = {}, 0
  for k, class in ipairs(deck.classes) do
    for _ = 1, numbers[k] or 0 do
      local at = deck.dealt[class.number] + 1
      deck.dealt[class.number] = at
      list[#list + 1] = string.format("\\pg@place{%d}{%d}", class.number, at)
      height = height + deck.sizes[class.number][at]
    end
  end
  return table.concat(list), height, #list
end
-- as commands, how many floats of each class are called behind the first items and not behind the last
local function calls_between(deck, flat, first, last)
  local numbers, list = {}, {}
  for k = first + 1, last do
    local class = flat[k].kind == "insert" and flat[k].class
    if class then numbers[class] = (numbers[class] or 0) + 1 end
  end
  for _, class in ipairs(deck.classes) do
    local number = numbers[class.number]
    if number then list[#list + 1] = string.format("\\pg@call{%d}{%d}", class.number, number) end
  end
  return table.concat(list)
end

---------------------------------------------------------------- the end of each column
-- how far in the list a place of pg's is
local function offset_of(place, part, blocks)
  local b = part.shown[place[1] + 1]
  if not b then return part.finish end
  local block, n = blocks[b], place[3]
  if not block.versions then return block.offset end
  for k, item in ipairs(block.versions[block.pick + 1]) do
    if not item.marker then
      if n == 0 then return block.offset + k - 1 end
      n = n - 1
    end
  end
  return block.offset + #block.versions[block.pick + 1]
end
-- the last text of a part goes to the end of its last piece; box_end is the first end behind its last box
local function find_ends(part, blocks, pieces)
  for _, page in ipairs(part.pages) do
    for _, column in ipairs(page.columns) do if column.goal then part.last_text = column end end
  end
  part.box_end, part.last_end = part.finish, part.finish
  if part.last_box > 0 then
    local block = blocks[part.last_box]
    part.box_end = block.offset + (block.versions and #block.versions[block.pick + 1] or 1)
    while not pieces[part.box_end] do part.box_end = part.box_end + 1 end
  end
  while not pieces[part.last_end] do part.last_end = part.last_end - 1 end
end
-- a break behind a break with no box between: what TeX drops at the first one is put back, but for so many items
local function taken_off(flat, from, to, log)
  local number, place = 0, from
  while flat[place + 1] and flat[place + 1].kind ~= "box" do
    local item = flat[place + 1]
    if is_discardable(item) then if place >= to then number = number + 1 end
    elseif place < to then complain("%s:%d: this item may come out on the page behind", log.file, item.at) end
    place = place + 1
  end
  return number
end
-- the items up to the end of a column; how many pieces at its end stand behind glue that is dropped; what is taken off
local function end_of(column, part, list, log)
  local to, pieces = offset_of(column.to, part, list.blocks), list.pieces
  local at, from, tail = to, nil, 0
  if column == part.last_text then
    at, from = part.last_end, part.box_end
    tail = pieces[at] - pieces[from]
  else
    while not pieces[at] do at = at - 1 end
    from = at
  end
  return at, tail, from < to and tail == 0 and taken_off(list.flat, from, to, log) or -1
end

---------------------------------------------------------------- NAME.pgx
local function put_sizes(put, deck)
  for _, class in ipairs(deck.classes) do
    for n, size in ipairs(deck.sizes[class.number]) do put("\\pg@size{%d}{%d}{%d}", class.number, n, size) end
  end
end
local function put_picks(put, picked)
  local by_hand = 0
  for _, block in ipairs(picked) do
    if not block.paragraph then by_hand = by_hand + 1 end
    if block.pick ~= 0 then
      if block.paragraph then put("\\pg@length{%d}{%d}", block.paragraph, block.versions[block.pick + 1].looseness)
      else put("\\pg@choice{%d}{%d}", by_hand, block.pick) end
    end
  end
end
-- The gaps of some floats as a style has them; what they do not have is 0.
local function natural_gaps(area, floats)
  return floats > 1 and size_of(area, "sep") or 0, floats > 0 and size_of(area, "gap") or 0
end
local function sum_of(numbers)
  local sum = 0
  for _, number in ipairs(numbers) do sum = sum + number end
  return sum
end
-- How the gaps around a text are set: as the page text says, or else as the style does. TeX has one separator for an area:
-- what others are more is in its gap. `more` is by how much all of them are set above their sizes.
local function gaps_of(column, style)
  local gaps = { more = 0, skips = {} }
  for area, floats in pairs { top = column.above, bottom = column.below } do
    local sep, gap = natural_gaps(style[area], sum_of(floats))
    gaps[area] = { sep = sep, gap = gap, seps = 0, all = 0 }
  end
  for class in pairs(column.has_notes) do gaps.skips[class] = size_of(style.notes[class], "skip") end
  for _, line in ipairs(column.gaps) do
    local area = gaps[line.area]
    gaps.more = gaps.more + line.set - line.size
    if line.kind == "skip" then gaps.skips[line.class] = line.set
    else
      area.all = area.all + line.set
      if line.kind == "gap" then area.gap = line.set
      elseif area.seps == 0 then area.sep, area.seps = line.set, 1
      else area.seps = area.seps + 1 end
    end
  end
  for _, area in ipairs { gaps.top, gaps.bottom } do
    if area.all > 0 then area.gap = area.all - area.seps * area.sep end
  end
  return gaps
end
local function put_gaps(put, gaps)
  local classes, skips = {}, {}
  for class in pairs(gaps.skips) do classes[#classes + 1] = class end
  table.sort(classes)
  for k, class in ipairs(classes) do skips[k] = string.format("\\pg@skip{%d}{%d}", class, gaps.skips[class]) end
  put("\\pg@gaps{%d}{%d}{%d}{%d}{%s}", gaps.top.sep, gaps.top.gap, gaps.bottom.sep, gaps.bottom.gap, table.concat(skips))
end
-- Whether the glue of a text is set. A text that is short has its own height where bottoms are ragged, and at the end of a
-- part; a \vfil on it is stretched.
local function is_set(column, part, style, is_left)
  if column.total > column.goal then return true end
  if is_left then return false end
  return column.is_set or not style.ragged and column ~= part.last_text
end
local function put_column(put, column, part, list, style, log)
  local above, _, how_many = deal(list.deck, column.above)
  local below = deal(list.deck, column.below)
  if not column.goal then put("\\pg@floatcolumn{%s}{%d}", above, how_many) return end
  local start = offset_of(column.from, part, list.blocks)
  list.starts[start] = list.starts[start] or list.page
  local at, tail, back = end_of(column, part, list, log)
  -- the option ragged leaves room where a style of one's own does not
  local is_left = log.bottom == "ragged" and column.total <= column.goal
  if is_left then column.gaps = {} end
  local gaps = gaps_of(column, style)
  local height, room = column.goal - gaps.more, 0
  if not is_set(column, part, style, is_left) then height, room = column.total, height - column.total end
  put("\\pg@measures{%d}{%d}{%s}", column.total, column.notes, calls_between(list.deck, list.flat, list.done, at))
  put_gaps(put, gaps)
  put("\\pg@column{%d}{%d}{%d}{%d}{%d}{%s}{%s}", list.pieces[at] - list.pieces[list.done], tail, back, height, room, above, below)
  list.done, list.columns = at, list.columns + 1
end
local function put_page(put, page, part, list, style, log)
  list.page = list.page + 1
  local wide, height, floats = deal(list.deck, page.wide)
  local sep, gap = natural_gaps(style.wide, floats)
  local extra = size_of(style.runs[page.run + 1], "extra")
  local left = size_of(style, "height") + extra - height - math.max(0, floats - 1) * sep - gap
  put("\\pg@page{%d}{%d}{%s}{%d}{%d}{%d}", list.page, extra, wide, sep, gap, left)
  for _, column in ipairs(page.columns) do put_column(put, column, part, list, style, log) end
  for _ = #page.columns + 1, integer(part.columns) do put("\\pg@floatcolumn{}{0}") end
end
local function write_commands(parts, blocks, style, log, sum)
  local flat, picked = flatten(parts, blocks)
  -- the list with its pieces; how much of it is done, the page and the columns so far, and behind which items a page starts
  local list = { flat = flat, blocks = blocks, pieces = count_pieces(flat), deck = new_deck(flat, style),
    done = 0, page = 0, columns = 0, starts = {} }
  local out = {}
  local function put(...) out[#out + 1] = string.format(...) end
  put_sizes(put, list.deck)
  put_picks(put, picked)
  for _, part in ipairs(parts) do
    put("\\pg@part{%s}{%s}", part.before or "", part.columns)
    find_ends(part, blocks, list.pieces)
    for _, page in ipairs(part.pages) do put_page(put, page, part, list, style, log) end
  end
  if log.engine == "lualatex" then write_file(name .. ".pgi", described_items(flat, list.starts)) end
  write_file(name .. ".pgx", string.format("%% the pages of %s for pg.sty, made by pgtex %s\n", name, VERSION) ..
    string.format("\\pg@pages{%d}{%s}{%d}{%d}\n", FORMAT, sum, list.page, list.columns) ..
    string.format("\\pg@layout{%d}{%d}{%d}\n", size_of(style, "height"), size_of(style, "topskip"), size_of(style, "maxdepth")) ..
    table.concat(out, "\n") .. "\n\\endinput\n")
  return list.page
end

---------------------------------------------------------------- the page text of all parts
local function joined_pages(parts, log)
  local out, number, block, cost = {}, 0, 0, 0
  for _, part in ipairs(parts) do
    cost = cost + integer(part.text:match("^pages %d+ cost (-?%d+)"))
    for line in part.text:gmatch("[^\n]+") do
      line = line:gsub("^page (%d+)", function(n) return "page " .. integer(n) + number end)
      line = line:gsub("^(column %d+ from )(%d+)( %d+ %d+ to )(%d+)", function(a, from, b, to)
        return a .. integer(from) + block .. b .. integer(to) + block end)
      if not line:match("^pages ") then out[#out + 1] = line end
    end
    number, block = number + #part.pages, block + #part.shown
  end
  return string.format("pages %d cost %d width %s\n", number, cost, width_of(log)) .. table.concat(out, "\n") .. "\n"
end
-- what pg reads is kept before it is asked: where no pages are legal, pg_tell may be asked why
local function keep_galleys(parts, blocks, log)
  local all = {}
  for k, part in ipairs(parts) do
    for _, b in ipairs(part.shown) do all[#all + 1] = b end
    write_file(name .. "-" .. k .. ".pgg", part.lines)
    os.remove(name .. "-" .. k .. ".pages")
  end
  local more = #parts + 1
  while os.remove(name .. "-" .. more .. ".pgg") do os.remove(name .. "-" .. more .. ".pages") more = more + 1 end
  write_file(name .. ".pgg", (galley_text(all, blocks, log.root)))
  os.remove(name .. ".pages")
end
local function keep_pages(parts, log)
  for k, part in ipairs(parts) do write_file(name .. "-" .. k .. ".pages", part.text) end
  write_file(name .. ".pages", joined_pages(parts, log))
end

---------------------------------------------------------------- paragraphs in several lengths
-- LaTeX is run once more for each looseness, as a draft in a folder of its own: what stands beside the document stays
-- as it is.
-- What TeX was given to read: the document, or the line of commands that was typed.
local function source_of(log)
  local typed = (log.typed or ""):gsub("^&%S+%s*", "")
  if typed:sub(1, 1) == "\\" then return typed end
  typed = typed:gsub('"', "")
  local is_own = typed:gsub("%.tex$", ""):match("[^/\\]*$") == name:match("[^/\\]*$") -- and not by -jobname
  if typed == "" or is_own and lfs.isfile(name .. ".tex") then typed = name end
  return "\\input{" .. typed .. "}"
end
local function draft_run(log, looseness)
  local folder = temporary_name()
  lfs.mkdir(folder)
  if log.memory then -- as much as the run had whose log this is
    local main = tonumber(kpse.var_value("main_memory")) or log.memory
    if log.memory > main then os.setenv("extra_mem_bot", tostring(log.memory - main)) end
  end
  local program_of_engine = latex or log.engine
  local without_pdf = log.machine == "xe" and "-no-pdf" or "-draftmode"
  local base = name:match("[^/\\]*$")
  local command = string.format("%s %s -interaction=batchmode -output-directory=%s -jobname=%s %s", program_of_engine, without_pdf,
    quoted(folder), quoted(base), quoted(string.format("\\def\\pgloose{%d}%s", looseness, source_of(log))))
  os.execute(command .. (os.type == "windows" and " > NUL" or " > /dev/null"))
  local file = folder .. "/" .. base .. ".log"
  local text = read_file(file)
  if not text then stop("the draft run `%s' wrote no log", command) end
  if not text:find("\npg: galley ends", 1, true) and not text:find("\n! TeX capacity exceeded", 1, true) then
    stop("the draft run `%s' did not come to its end: %s", command, text:match("\n(! [^\n]*)") or "it has no galley")
  end
  local draft = read_log(file)
  draft.typed = log.typed
  if looseness == 0 then draft_log, draft.file = file, kept_log else remove(folder) end
  return draft
end

local function is_line(item) return item and item.line:match("^\\hbox") end
-- the items of a paragraph from its first line to its last, with the inserts of the last
local function paragraph_at(items, first, lines)
  local list, count, i = {}, 0, first
  while items[i] and count < lines do
    local item = items[i]
    if item.marker and (i ~= first + 1 or not item.marker:match("^paragraph")) then return nil end
    list[#list + 1] = item
    if is_line(item) then count = count + 1 end
    i = i + 1
  end
  if count < lines then return nil end
  if lines == 1 and items[i] and items[i].marker then list[#list + 1] = items[i] i = i + 1 end
  while items[i] and items[i].kind == "insert" do list[#list + 1] = items[i] i = i + 1 end
  return list, i - 1
end
-- what TeX counts for its lines, by the ratio that each line shows
local function demerits(list)
  local sum = 0
  for _, item in ipairs(list) do
    if is_line(item) then
      local ratio, order = item.line:match("glue set %-? ?([%d.]+)(f?i?l*)")
      local badness = ratio and order == "" and math.floor(100 * tonumber(ratio) ^ 3 + 0.5) or 0
      sum = sum + (10 + math.min(badness, 10000)) ^ 2
    end
  end
  return math.floor(sum)
end
-- How many lines, but for the last, are filled by glue without bound. No version may have more of them than the natural one:
-- they cost nothing, and a ragged or centred paragraph would get a line more for it, which may even be empty.
local function free_lines(list)
  local sum, is_free = 0, false
  for _, item in ipairs(list) do
    if is_line(item) then
      if is_free then sum = sum + 1 end
      is_free = item.line:match("glue set [^,]*%dfi") ~= nil
    end
  end
  return sum
end
local function inserts(list)
  local words = {}
  for _, item in ipairs(list) do
    if item.kind == "insert" then words[#words + 1] = item.line .. "\n" .. table.concat(item.deep, "\n") end
  end
  return table.concat(words, "\n")
end
local function with_line(item, line) return { line = line, deep = item.deep, at = item.at, kind = item.kind, marker = item.marker } end
-- the version as high as the natural one in its first line and as deep in its last, so that the glue around is right
-- whichever is picked
local function fitted(version, own)
  local last, own_last = 0, nil
  for k, item in ipairs(version) do if is_line(item) then last = k end end
  for _, item in ipairs(own) do if is_line(item) then own_last = item end end
  local height = own[1].line:match("^\\hbox%((%-?[%d.]+)%+")
  local depth = own_last.line:match("^\\hbox%(%-?[%d.]+%+(%-?[%d.]+)%)")
  local copy = {}
  for k, item in ipairs(version) do copy[k] = item end
  copy[1] = with_line(copy[1], (copy[1].line:gsub("^\\hbox%(%-?[%d.]+%+", "\\hbox(" .. height .. "+")))
  copy[last] = with_line(copy[last], (copy[last].line:gsub("^(\\hbox%(%-?[%d.]+%+)%-?[%d.]+%)", "%1" .. depth .. ")")))
  return copy
end
-- where each paragraph of the drafts has its first line
local function places_of_paragraphs(drafts)
  local places = {}
  for looseness, draft in pairs(drafts) do
    places[looseness] = {}
    for i, item in ipairs(draft.items) do
      local n = item.marker and item.marker:match("^paragraph (%d+)$")
      if n then places[looseness][integer(n)] = i - 1 end
    end
  end
  return places
end
-- the paragraph in the other lengths that have the same inserts
local function other_versions(n, own, lines, drafts, places)
  local versions = {}
  for _, looseness in ipairs { -1, 1, -2, 2 } do
    local draft = drafts[looseness]
    local first = draft and places[looseness][n]
    if first and draft.paragraphs[n] == lines + looseness then
      local version = paragraph_at(draft.items, first, draft.paragraphs[n])
      if version and is_line(version[1]) and free_lines(version) <= free_lines(own) and inserts(version) == inserts(own) then
        local price = math.max(0, math.min(100000000, demerits(version) - demerits(own)))
        version = fitted(version, own)
        version.looseness, version.marker = looseness, string.format("\\special{pg:variant %d %d}", looseness, price)
        versions[#versions + 1] = version
      end
    end
  end
  return versions
end
local function blocks_of_runs(log, drafts)
  local items, places, out, singles, i = log.items, places_of_paragraphs(drafts), {}, {}, 1
  local function flush()
    for _, block in ipairs(make_blocks(singles)) do out[#out + 1] = block end
    singles = {}
  end
  local is_by_hand = false -- within \lengths there are no choices
  while items[i] do
    local behind = items[i + 1]
    local n = integer(behind and behind.marker and behind.marker:match("^paragraph (%d+)$") or "")
    local lines = n and log.paragraphs[n]
    if items[i].line == "\\special{pg:choice}" then is_by_hand = true
    elseif items[i].line == "\\special{pg:end}" then is_by_hand = false end
    local own, last
    if lines and not is_by_hand and is_line(items[i]) then own, last = paragraph_at(items, i, lines) end
    local versions = own and other_versions(n, own, lines, drafts, places) or {}
    if #versions > 0 then
      flush()
      own.looseness, own.marker = 0, "\\special{pg:variant 0 0}"
      table.insert(versions, 1, own)
      out[#out + 1] = { versions = versions, paragraph = n }
      i = last + 1
    else
      singles[#singles + 1] = items[i]
      i = i + 1
    end
  end
  flush()
  return out
end

---------------------------------------------------------------- the whole
local log = read_log(name .. ".log")
local style = read_style(log.style or name .. ".toml", log)
-- a run with pages shows the lengths that were picked: the natural ones come of a draft
if log.picks == "1" then
  local draft = draft_run(log, 0)
  draft.style, log = log.style, draft
end
local drafts = {}
local lengths = integer(log.lengths or "0")
if log.engine ~= "lualatex" then
  for looseness = 1, lengths do
    drafts[-looseness], drafts[looseness] = draft_run(log, -looseness), draft_run(log, looseness)
  end
end
local blocks = next(drafts) and blocks_of_runs(log, drafts) or make_blocks(log.items)
local parts = make_parts(blocks, log.columns or style.columns)
if #parts == 0 then stop("%s.log: the galley is empty", name) end

local galley = {}
for _, part in ipairs(parts) do
  show_to_pg(part, blocks)
  part.lines, part.read = galley_text(part.shown, blocks, log.root)
  galley[#galley + 1] = (part.before or "") .. part.columns .. "\n" .. part.lines
end
galley = table.concat(galley)
local sum = md5.sumhexa(VERSION .. FORMAT .. (log.bottom or "") .. style.text .. galley)
local old = read_file(name .. ".pgx")
if old and old:match("\\pg@pages{%d+}{(%x+)}") == sum and not keep then
  clean()
  say("%s.pgx is of this galley", name)
  tell_memory(log)
  os.exit(0)
end
if keep then keep_galleys(parts, blocks, log) end
paginate(parts, blocks, style, log)
local how_many = write_commands(parts, blocks, style, log, sum)
if keep then keep_pages(parts, log) end
clean()
os.remove(kept_log)
say("%s.pgx has %d pages; run LaTeX again", name, how_many)
tell_memory(log)
