-- pg.lua: what pg.sty has of LuaTeX: paragraphs in several lengths in one run, and the galley compared item by item.
local pg = {}

local types = {}
for number, word in pairs(node.types()) do types[word] = number end
local HLIST, VLIST, RULE, GLUE, KERN, PENALTY, INSERT, GLYPH, DISC =
  types.hlist, types.vlist, types.rule, types.glue, types.kern, types.penalty, types.ins, types.glyph, types.disc

local function is_box(n) return n.id == HLIST or n.id == VLIST or n.id == RULE end
local function is_discardable(n) return n.id == GLUE or n.id == KERN or n.id == PENALTY end
local function is_line(n) return n.id == HLIST and n.subtype == 1 end

---------------------------------------------------------------- paragraphs in several lengths
-- Each paragraph of the galley is broken again, as a copy, with other values of \looseness. TeX's own list is left
-- alone, or replaced by the version that pg picked; the log shows all versions in any case.
local ATTRIBUTE       -- names the paragraph of each item
local level           -- of a paragraph that stands in the galley itself
local loosenesses, tolerance
local count = 0       -- the paragraphs that have versions
local natural, versions = {}, {}
local waiting         -- between the two callbacks

local function lines_in(list)
  local sum = 0
  for n in node.traverse(list) do if is_line(n) then sum = sum + 1 end end
  return sum
end
local function last_line(list)
  local last
  for n in node.traverse(list) do if is_line(n) then last = n end end
  return last
end
-- How many lines, but for the last, are filled by glue without bound. No version may have more of them than the natural one:
-- they cost nothing, and a ragged or centred paragraph would get a line more for it, which may even be empty.
local function free_lines(list)
  local sum, is_free = 0, false
  for n in node.traverse(list) do
    if is_line(n) then
      if is_free then sum = sum + 1 end
      is_free = n.glue_order > 0
    end
  end
  return sum
end
-- the list from its first line on, or nothing where a mark or the like stands in front of it
local function from_first_line(list)
  while list and not is_box(list) do
    if not is_discardable(list) then return nil end
    list = list.next
    if list then list.prev = nil end
  end
  return list
end

local function before_break(head, group)
  waiting = nil
  if group ~= "" or tex.nest.ptr ~= level then return true end
  local made = {}
  for _, looseness in ipairs(loosenesses) do
    local list, info = tex.linebreak(node.copy_list(head),
      { looseness = looseness, tolerance = tolerance, emergencystretch = tex.emergencystretch })
    if list then made[#made + 1] = { looseness = looseness, demerits = info.demerits, list = list } end
  end
  local list, info = tex.linebreak(node.copy_list(head), {})
  waiting = { made = made, demerits = info.demerits }
  node.flush_list(list)
  return true
end
local function after_break(head)
  local made = waiting
  waiting = nil
  if not made then return true end
  local lines, free, last = lines_in(head), free_lines(head), last_line(head)
  local front = head
  while front and not is_box(front) do front = front.next end
  if not last or is_discardable(node.tail(head)) then return true end
  local kept = {}
  for _, version in ipairs(made.made) do
    local list = lines_in(version.list) == lines + version.looseness and free_lines(version.list) <= free and
      from_first_line(version.list)
    if list and is_line(list) and not is_discardable(node.tail(list)) and list.height <= front.height then
      -- one height in front and one depth behind: the glue around is right whichever is picked
      list.height = front.height
      last_line(list).depth = last.depth
      version.list = list
      version.demerits = math.max(0, math.min(100000000, version.demerits - made.demerits))
      kept[#kept + 1] = version
    end
  end
  if #kept == 0 then return true end
  count = count + 1
  local picked = tonumber(token.get_macro("pg@length@" .. count) or "0")
  -- what stands in front of the first line stays as it is
  local copy = node.copy_list(front)
  natural[count], versions[count] = copy, kept
  for _, version in ipairs(kept) do
    if version.looseness == picked then
      local list = node.copy_list(version.list)
      if front == head then head = list
      else
        front.prev.next = list
        list.prev = front.prev
      end
      front.prev = nil
      node.flush_list(front)
      front = list
      break
    end
  end
  for n in node.traverse(front) do node.set_attribute(n, ATTRIBUTE, count) end
  return head
end

function pg.begin(attribute, most, badness)
  ATTRIBUTE, level, tolerance, loosenesses = attribute, tex.nest.ptr + 2, badness, {}
  for n = 1, most do
    loosenesses[#loosenesses + 1] = -n
    loosenesses[#loosenesses + 1] = n
  end
  luatexbase.add_to_callback("pre_linebreak_filter", before_break, "pg.before_break")
  luatexbase.add_to_callback("post_linebreak_filter", after_break, "pg.after_break")
end
function pg.finish()
  luatexbase.remove_from_callback("pre_linebreak_filter", "pg.before_break")
  luatexbase.remove_from_callback("post_linebreak_filter", "pg.after_break")
end

-- a copy of the galley with all versions, for the log
function pg.with_versions(galley, copy)
  local head, tail
  local function add(list)
    while list do
      local behind = list.next
      list.next, list.prev = nil, tail
      if tail then tail.next = list else head = list end
      tail, list = list, behind
    end
  end
  local function special(...)
    local n = node.new("whatsit", "special")
    n.data = string.format(...)
    add(n)
  end
  local inside
  for n in node.traverse(tex.box[galley].list) do
    local paragraph = node.get_attribute(n, ATTRIBUTE)
    if paragraph and natural[paragraph] then
      if paragraph ~= inside then
        special("pgtex:paragraph %d", paragraph)
        special("pg:choice")
        special("pg:variant 0 0")
        add(node.copy_list(natural[paragraph]))
        for _, version in ipairs(versions[paragraph]) do
          special("pg:variant %d %d", version.looseness, version.demerits)
          add(node.copy_list(version.list))
        end
        special("pg:end")
      end
      inside = paragraph
    else
      inside = nil
      add(node.copy(n))
    end
  end
  tex.box[copy] = node.vpack(head)
end

---------------------------------------------------------------- the galley beside that of the pages
-- NAME.pgi has a line for each item, as pgtex read it: its kind and its sizes in TeX's units.
local ORDER = { [0] = "", "fi", "fil", "fill", "filll" }
local function described(n)
  if n.id == RULE then return "rule"
  elseif is_box(n) then return string.format("box %d %d", n.height, n.depth)
  elseif n.id == GLUE then
    return string.format("glue %d %d%s %d%s", n.width, n.stretch, n.stretch == 0 and "" or ORDER[n.stretch_order],
      n.shrink, n.shrink == 0 and "" or ORDER[n.shrink_order])
  elseif n.id == KERN then return string.format("kern %d", n.kern)
  elseif n.id == PENALTY then return string.format("penalty %d", n.penalty)
  elseif n.id == INSERT then return string.format("insert %d %d", n.subtype, n.height)
  else return "carry" end
end
-- such a line for a reader, with sizes in points
local function told(line)
  local kind, first, second, third = line:match("^(%S+) ?(%S*) ?(%S*) ?(%S*)$")
  local function size(word)
    local number, order = word:match("^(-?%d+)(%a*)$")
    if not number then return word end
    return string.format("%.5f", number / 65536):gsub("0+$", ""):gsub("%.$", ".0") .. (order == "" and "pt" or order)
  end
  local function part(word, given) return given == "0" and "" or " " .. word .. " " .. size(given) end
  if kind == "box" then return string.format("a box %s high and %s deep", size(first), size(second))
  elseif kind == "glue" then return "glue " .. size(first) .. part("plus", second) .. part("minus", third)
  elseif kind == "kern" then return "kern " .. size(first)
  elseif kind == "insert" then return string.format("an insert of class %s, %s high", first, size(second))
  elseif kind == "carry" then return "a mark or a special"
  else return line end
end
-- the last words of a line
local function last_words(line)
  local out = {}
  local function add(list)
    for n in node.traverse(list) do
      if n.id == GLYPH and n.components then add(n.components)
      elseif n.id == GLYPH and n.char > 32 and n.char < 0x110000 then out[#out + 1] = utf8.char(n.char)
      elseif n.id == GLUE then out[#out + 1] = " "
      elseif n.id == DISC and n.replace then add(n.replace)
      elseif n.id == HLIST and n.list then add(n.list) end
    end
  end
  if line.list then add(line.list) end
  local text = table.concat(out):gsub(" +", " "):gsub(" $", "")
  return text:match("%S+ %S+ %S+$") or text
end
-- the first item that differs, in words; nothing where all are the same
function pg.difference(galley, file)
  local name = file:gsub('"', "") -- TeX puts quotes around a name with a blank
  local lines = io.open(name, "rb")
  for k, word in ipairs(arg) do -- LuaTeX looks there for what TeX opens, and not for what Lua opens
    local folder = word:match("^%-%-?output%-directory=(.*)$") or word:match("^%-%-?output%-directory$") and arg[k + 1]
    lines = lines or folder and io.open(folder .. "/" .. name, "rb")
  end
  if not lines then return "there is no " .. name end
  local page, wanted, line = 1, nil, nil
  local function next_line()
    wanted = lines:read("l")
    while wanted and wanted:match("^page ") do
      page = wanted:match("%d+")
      wanted = lines:read("l")
    end
  end
  for n in node.traverse(tex.box[galley].list) do
    next_line()
    local here = described(n)
    if wanted ~= here then
      lines:close()
      if not wanted then return "behind the last page: there is more, " .. told(here) end
      local words = line and last_words(line) or ""
      return string.format("page %s: %sthere is %s, and %s on pg's page", page, words == "" and "" or "behind `" .. words .. "' ",
        told(here), told(wanted))
    end
    if is_line(n) then line = n end
  end
  next_line()
  lines:close()
  if wanted then return string.format("page %s: the text ends, and pg's page goes on with %s", page, told(wanted)) end
  return ""
end

---------------------------------------------------------------- the columns measured
-- What TeX's page builder makes of a column that was taken apart, without a copy of it: how high the text and its notes
-- are, in TeX's units, and how many inserts of each class there are. As many of the items dropped behind it as pg@contribute
-- takes off are left out, or all of them.
function pg.measure(number, taken_off, topskip, maxdepth, notes)
  local out = { text = 0, notes = 0, calls = {} }
  local depth, is_begun, is_over = 0, false, false
  local function add(n)
    if is_box(n) then
      if is_over then out.text = -1 end
      if not is_begun then out.text = math.max(0, topskip - n.height) end
      out.text, depth, is_begun = out.text + depth + n.height, n.depth, true
    elseif n.id == INSERT and n.subtype == notes then out.notes = out.notes + n.height
    elseif n.id == INSERT then out.calls[n.subtype] = (out.calls[n.subtype] or 0) + 1
    elseif not is_begun or is_over then return
    elseif n.id == GLUE then out.text, depth = out.text + depth + n.width, 0
    elseif n.id == KERN then out.text, depth = out.text + depth + n.kern, 0
    elseif n.id == PENALTY and n.penalty <= -10000 then is_over = true end
  end
  local text = tex.box[number].list
  for n in node.traverse(text.list) do add(n) end
  local dropped = {}
  for n in node.traverse(node.tail(text).list) do dropped[#dropped + 1] = n end
  local last = taken_off < 0 and 0 or #dropped
  for _ = 1, taken_off do
    if last > 0 and is_discardable(dropped[last]) then last = last - 1 end
  end
  for k = 1, last do add(dropped[k]) end
  out.text = out.text + math.max(0, depth - maxdepth)
  pg.measured = out
end

---------------------------------------------------------------- room for the galley
-- LuaTeX goes through all holes of the size of a box for each box that it frees, and a galley has as many boxes as lines. So
-- they are not freed: a copy of each page is shipped out.
function pg.spare(number)
  local page = tex.box[number]
  if page then page.list = node.copy_list(page.list) end
end

return pg
