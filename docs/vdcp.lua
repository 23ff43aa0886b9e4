-- VDCP in Wireshark: the words and the state byte of docs/PROTOCOL.md. It goes into the folder of personal Lua plugins
-- (Help, About, Folders), or tshark is given it: tshark -X lua_script:docs/vdcp.lua. What comes by TCP port 7400 is
-- read by it, and what comes by another one by Decode As, or tshark -d tcp.port==N,vdcp.
--
-- A segment of TCP is taken for a burst. So a message that two of them carry is shown as cut.

local vdcp = Proto("vdcp", "Video Disk Communications Protocol")
local fields = {
    line = ProtoField.string("vdcp.line", "As vdcp show --words prints it"),
    unit = ProtoField.uint8("vdcp.unit", "Unit"),
    kind = ProtoField.uint8("vdcp.type", "Type"),
    code = ProtoField.uint8("vdcp.code", "Code", base.HEX),
    data = ProtoField.bytes("vdcp.data", "Data"),
    sum = ProtoField.uint8("vdcp.checksum", "Checksum", base.HEX),
    word = ProtoField.string("vdcp.word", "Word"),
    nak = ProtoField.uint8("vdcp.nak", "NAK", base.HEX),
    port = ProtoField.uint8("vdcp.port", "Port"),
    lock = ProtoField.uint8("vdcp.lock", "Lock", base.HEX),
    bitmap = ProtoField.uint8("vdcp.bitmap", "Bitmap", base.HEX),
    id = ProtoField.string("vdcp.id", "Clip ID"),
    start = ProtoField.bytes("vdcp.start", "Start", base.NONE, "frames, seconds, minutes, hours"),
    duration = ProtoField.bytes("vdcp.duration", "Duration", base.NONE, "frames, seconds, minutes, hours"),
    length = ProtoField.bytes("vdcp.length", "Length", base.NONE, "frames, seconds, minutes, hours"),
    state = ProtoField.uint8("vdcp.state", "State", base.HEX, {
        [0x01] = "nothing cued, nothing plays",
        [0x04] = "nothing cued, a clip plays",
        [0x02] = "cueing, nothing plays",
        [0x06] = "cueing, a clip plays",
        [0x80] = "cue done, nothing plays",
        [0x84] = "cue done, a clip plays",
    }),
}
vdcp.fields = fields
local not_clean = ProtoExpert.new("vdcp.end", "The burst doesn't end clean", expert.group.MALFORMED, expert.severity.WARN)
vdcp.experts = { not_clean }

local function hex(range) return range:bytes():tohex(true) end

-- The plain form where there is one, else the other form.
local function id_text(range)
    local bytes = range:raw()
    local plain = bytes:gsub(" +$", "")
    if plain ~= "" and not plain:find("[^ -~]") and plain:sub(1, 1) ~= " " then
        return plain
    end
    return "0x" .. hex(range)
end

-- By type and code: what is typed for it, the bytes of its data, and the parts of these.
local commands = {
    [0x100] = { "stop", 0, {} },
    [0x101] = { "play", 0, {} },
    [0x221] = { "close", 1, { { "port", 1 } } },
    [0x222] = { "select", 1, { { "port", 1 } } },
    [0x224] = { "cue", 8, { { "id", 8 } } },
    [0x225] = { "cue-data", 16, { { "id", 8 }, { "start", 4 }, { "duration", 4 } } },
    [0x301] = { "open", 2, { { "port", 1 }, { "lock", 1 } } },
    [0x305] = { "status", 1, { { "bitmap", 1 } } },
    [0x307] = { "active", 0, {} },
    [0x314] = { "size", 8, { { "id", 8 } } },
    [0x316] = { "exists", 8, { { "id", 8 } } },
}

-- Each gives a reply's text, by its data of this length, or nothing where that is too short.
local replies = {
    [0x381] = function(data, length) return length >= 1 and (data(0, 1):uint() == 0 and "denied" or "granted") end,
    [0x385] = function(data, length, tree)
        local has_state = length >= 1 and data(0, 1):bitfield(7, 1) == 1
        if length < (has_state and 2 or 1) then return end
        tree:add(fields.bitmap, data(0, 1))
        if not has_state then return "state none" end
        tree:add(fields.state, data(1, 1))
        return "state " .. hex(data(1, 1))
    end,
    [0x387] = function(data, length, tree)
        if length >= 1 and data(0, 1):uint() == 0 then return "active none" end
        if length < 9 then return end
        tree:add(fields.id, data(1, 8), id_text(data(1, 8)))
        return "active " .. id_text(data(1, 8))
    end,
    [0x394] = function(data, length, tree)
        if length < 4 then return end
        tree:add(fields.length, data(0, 4))
        return "size " .. hex(data(0, 4))
    end,
    [0x396] = function(data, length) return length >= 1 and (data(0, 1):bitfield(7, 1) == 1 and "present" or "absent") end,
}

local function read_command(command, data, length, tree)
    local text, at = command[1], 0
    if length ~= command[2] then return end
    for _, part in ipairs(command[3]) do
        local range = data(at, part[2])
        local shown = part[1] == "id" and id_text(range) or hex(range)
        if part[1] == "id" then tree:add(fields.id, range, shown) else tree:add(fields[part[1]], range) end
        text, at = text .. " " .. shown, at + part[2]
    end
    return text
end

-- Adds a framed message, and returns its line and its word.
local function add_framed(message, tree)
    local kind, unit, code = message(2, 1):bitfield(0, 4), message(2, 1):bitfield(4, 4), message(3, 1):uint()
    local data, length, digits = message(4), message:len() - 5, "-"
    tree:add(fields.unit, message(2, 1), unit)
    tree:add(fields.kind, message(2, 1), kind)
    tree:add(fields.code, message(3, 1))
    if length > 0 then
        tree:add(fields.data, data(0, length))
        digits = hex(data(0, length))
    end
    local command, reply = commands[kind * 256 + code], replies[kind * 256 + code]
    local word = command and read_command(command, data, length, tree) or reply and reply(data, length, tree)
    tree:add(fields.sum, data(length, 1))
    local line = string.format("unit %d type %d code %02x data %s", unit, kind, code, digits)
    return word and line .. " = " .. word or line, word or line
end

-- How many bytes the message has that begins here, or nothing and how the burst ends there.
local function length_at(tvb, at, most)
    local first, left = tvb(at, 1):uint(), most - at
    local cut = tvb:len() > most and "fault long " .. most + 1 or "cut " .. left
    if first == 0x04 then
        return 1
    elseif first == 0x05 then
        return left >= 2 and 2 or nil, cut
    elseif first ~= 0x02 then
        return nil, "fault bad-start " .. at + 1
    elseif left < 2 then
        return nil, cut
    end
    local count = tvb(at + 1, 1):uint()
    if count < 2 then
        return nil, string.format("fault bad-count %d count %d", at + 2, count)
    elseif left < count + 3 then
        return nil, cut
    end
    local sum = 0
    for place = at + 2, at + count + 2 do
        sum = sum + tvb(place, 1):uint()
    end
    if sum % 256 ~= 0 then
        return nil, "fault bad-sum " .. at + count + 3
    end
    return count + 3
end

local function add_message(message, root)
    local tree = root:add(vdcp, message)
    local first, line, word = message(0, 1):uint(), "ack", nil
    if first == 0x05 then
        tree:add(fields.nak, message(1, 1))
        line = "nak " .. hex(message(1, 1))
    elseif first == 0x02 then
        line, word = add_framed(message, tree)
        tree:add(fields.word, message, word):set_generated()
    end
    tree:set_text("VDCP " .. (word or line))
    tree:add(fields.line, message, line):set_generated()
    return word or line
end

function vdcp.dissector(tvb, pinfo, root)
    local at, most, told = 0, math.min(tvb:len(), 4096), {}
    local ended = tvb:len() > most and "fault long " .. most + 1 or "clean"
    while at < most do
        local length, how = length_at(tvb, at, most)
        if not length then
            ended = how
            break
        end
        told[#told + 1] = add_message(tvb(at, length), root)
        at = at + length
    end
    pinfo.cols.protocol = "VDCP"
    local range = at < tvb:len() and tvb(at) or tvb()
    local tree = root:add(vdcp, range)
    tree:set_text("VDCP burst ends " .. ended)
    tree:add(fields.line, range, ended):set_generated()
    if ended ~= "clean" then
        told[#told + 1] = ended
        tree:add_proto_expert_info(not_clean, ended)
    end
    pinfo.cols.info = table.concat(told, "; ")
    return tvb:len()
end

DissectorTable.get("tcp.port"):add(7400, vdcp)
