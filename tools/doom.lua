-- A dissector for Wireshark and tshark of a netgame's datagrams: those of 1997, which plain nodes send, the
-- envelopes of sealed nodes, the datagrams of links, with their reports, and the greetings of hosts and those
-- who join. docs/PROTOCOL.md has their layouts.
--
--     wireshark -X lua_script:tools/doom.lua
--
-- Nothing on the line is encrypted, so every field is shown. A tag is shown, and not checked: that takes the
-- game's key. On the UDP ports of the preference `doom.ports` all bytes are taken for a netgame's, whatever is
-- wrong with them; on other ports those alone with which nothing is. It needs Wireshark 4.0.

local doom = Proto("doom", "Doom netgame, datagram of 1997")
local seal = Proto("doom_seal", "Doom netgame, seal")
local link = Proto("doom_link", "Doom netgame, datagram of a link")
local report = Proto("doom_report", "Doom netgame, report")
local greeting = Proto("doom_greeting", "Doom netgame, greeting")

local MAX_COMMANDS, MAX_DATAGRAM, MAX_PARTS, MAX_RUN, MAX_TOLD, MAX_TAIL = 12, 104, 24, 24, 2, 24
local THIRD, DIFFERENCES, MAX_HEAD = 32, 64, 127 -- of a run's first byte: for a third player's, for commands that
-- stand as differences, and the most
local NO_COMMAND = ("\0"):rep(8) -- by which the first command of a run is told
local EXIT, RETRANSMIT, SETUP, KILL = 8, 4, 2, 1
local SUM = 0x10000000 -- the checksum word has the flags in units of this
local HEAD, TAG = 12, 16 -- bytes of the head that all but greetings have, and of the tag
local PACKET, GREETING, LINK = 1, 4, 5 -- the kinds
local KINDS = { [PACKET] = "one datagram", [GREETING] = "a greeting", [LINK] = "a link's datagram" }
local SUITES = { [0] = "none: a hint", "shared secret", "open game" }
local PROTOCOLS = { [PACKET] = seal, [LINK] = link }
local SIZES = { [PACKET] = { 37, 141 }, [LINK] = { 62, 1200 } }
-- behind the head of a link's datagram: where the number of a report's bytes stands, and these; the most of
-- them, and the highest cause
local REPORT_SIZE, REPORT, MAX_REPORT, MAX_CAUSE = 31, 33, 397, 5
local CAUSES = { [0] = "plays", "quit", "full demo", "world differs", "has given up the receiver", "probe" }
local NAME, VERSION = "zirmegat", 2 -- of greetings
local CALL, SEATING, REFUSAL, HINT = 1, 2, 3, 4 -- their sorts
local SORTS = { "call", "seating", "refusal", "hint" }
local LENGTHS = { [CALL] = 581, [SEATING] = 581, [REFUSAL] = 66, [HINT] = 29 }
local TERMS, SEATS, SEAT = 82, 370, 65 -- where terms and seats stand in a seating, and the bytes of a seat
local REASONS = { "the cookie is not good", "no seat is to be had", "the game has begun",
    "another number of players", "another identity", "turned away" }
local POLICIES = { "the others wait", "it is given up", "the game ends" }
local HELD = { [0] = "by nobody", "by one who was not heard", "by one who was heard" }
local HINTS = { "another suite or key", "another version" }

local P = ProtoField
local function bit_of(name, label, width, mask) return P.bool(name, label, width, nil, mask) end
local function bits_of(name, label, mask) return P.uint8(name, label, base.DEC, nil, mask) end
local function named(name, label, names) return P.uint8(name, label, base.DEC, names) end

local f = {
    sum = P.uint32("doom.checksum", "Checksum", base.HEX, nil, 0x0fffffff),
    right = P.uint32("doom.checksum.calculated", "Calculated checksum", base.HEX),
    status = named("doom.checksum.status", "Checksum status", { [0] = "Bad", "Good", "Unverified" }),
    flags = P.uint32("doom.flags", "Flags", base.HEX, nil, 0xf0000000),
    exit = bit_of("doom.flags.exit", "EXIT: the sender has left", 32, 0x80000000),
    again = bit_of("doom.flags.retransmit", "RETRANSMIT: commands are asked for again", 32, 0x40000000),
    setup = bit_of("doom.flags.setup", "SETUP: the choice of game", 32, 0x20000000),
    kill = bit_of("doom.flags.kill", "KILL: the receiver is to end the game", 32, 0x10000000),
    ask = P.uint8("doom.ask", "Retransmit from, low byte"),
    start = P.uint8("doom.start", "Start tic, low byte"),
    player = P.uint8("doom.player", "Player"),
    count = P.uint8("doom.count", "Number of commands"),
    exact_start = P.uint32("doom.exact.start", "Start tic"),
    exact_asked = P.uint8("doom.exact.asked", "Commands are asked for again"),
    exact_ask = P.uint32("doom.exact.ask", "Retransmit from"),
    version = P.uint8("doom.setup.version", "Version"),
    skill = bits_of("doom.setup.skill", "Skill", 0x0f),
    respawn = bit_of("doom.setup.respawn", "Monsters respawn", 8, 0x10),
    nomonsters = bit_of("doom.setup.nomonsters", "No monsters", 8, 0x20),
    deathmatch = bits_of("doom.setup.deathmatch", "Deathmatch", 0xc0),
    map = bits_of("doom.setup.map", "Map", 0x3f),
    episode = bits_of("doom.setup.episode", "Episode", 0xc0),
    cmd = P.none("doom.cmd", "Command"),
    tic = P.uint32("doom.cmd.tic", "Tic, or its low byte where no more is known"),
    forward = P.int8("doom.cmd.forward", "Forward"),
    side = P.int8("doom.cmd.side", "Side"),
    turn = P.int16("doom.cmd.turn", "Turn"),
    mark = P.int16("doom.cmd.mark", "Consistency mark"),
    chat = P.uint8("doom.cmd.chat", "Chat"),
    buttons = P.uint8("doom.cmd.buttons", "Buttons", base.HEX),
    attack = bit_of("doom.cmd.buttons.attack", "Attack", 8, 0x01),
    use = bit_of("doom.cmd.buttons.use", "Use", 8, 0x02),
    change = bit_of("doom.cmd.buttons.change", "Change of weapon", 8, 0x04),
    weapon = bits_of("doom.cmd.buttons.weapon", "Place of the weapon", 0x38),
}
doom.fields = f

local s = {
    suite = named("doom_seal.suite", "Suite", SUITES),
    kind = named("doom_seal.kind", "Kind", KINDS),
    game = P.bytes("doom_seal.game", "Game, the first bytes of its number"),
    from = P.uint8("doom_seal.from", "From player"),
    to = P.uint8("doom_seal.to", "To player"),
    tag = P.bytes("doom_seal.tag", "Tag, not checked"),
}
seal.fields = s

local l = {
    number = P.uint32("doom_link.number", "Number"),
    lead = P.int8("doom_link.lead", "Lead over the receiver"),
    holes = P.uint8("doom_link.holes", "Datagrams missing"),
    cause = named("doom_link.cause", "Why its sender ended, that it gave up the receiver, or that this is a probe", CAUSES),
    made = P.uint32("doom_link.made", "Commands made"),
    echo = P.uint32("doom_link.echo", "Number after that of the newest datagram that came"),
    got = P.uint32("doom_link.got", "Commands that it has"),
    report = P.uint16("doom_link.report", "Bytes of the report"),
    parts = P.uint8("doom_link.parts", "Number of parts"),
    part = P.none("doom_link.part", "Part"),
    run = P.uint8("doom_link.part.run", "Packets in the run, or 0 for one as it is"),
    third = P.uint8("doom_link.part.player", "Third player, whose commands the sender hands on"),
    size = P.uint8("doom_link.part.length", "Bytes of the packet"),
}
link.fields = l

local t = {
    gone = P.uint8("doom_report.gone", "Given up, a bit for each player", base.HEX, nil, 0x0f),
    gone0 = bit_of("doom_report.gone.player0", "Player 0", 8, 0x01),
    gone1 = bit_of("doom_report.gone.player1", "Player 1", 8, 0x02),
    gone2 = bit_of("doom_report.gone.player2", "Player 2", 8, 0x04),
    gone3 = bit_of("doom_report.gone.player3", "Player 3", 8, 0x08),
    left = bit_of("doom_report.left", "The sender has left", 8, 0x80),
    told = P.none("doom_report.told", "Told"),
    player = P.uint8("doom_report.player", "Player"),
    count = P.uint32("doom_report.count", "Commands that the sender has"),
    last = P.uint8("doom_report.last", "How many of them follow, the last"),
}
report.fields = t

local g = {
    suite = named("doom_greeting.suite", "Suite", SUITES),
    kind = named("doom_greeting.kind", "Kind", KINDS),
    name = P.string("doom_greeting.name", "Name"),
    version = P.uint8("doom_greeting.version", "Version"),
    sort = named("doom_greeting.what", "What", SORTS),
    number = P.bytes("doom_greeting.number", "Number of the joiner's session"),
    count = P.uint32("doom_greeting.count", "Count of the call"),
    cookie = P.bytes("doom_greeting.cookie", "Cookie"),
    seat = P.uint8("doom_greeting.seat", "Seat"),
    players = P.uint8("doom_greeting.players", "Players"),
    identity = P.bytes("doom_greeting.identity", "Identity of the engine"),
    called = P.bytes("doom_greeting.called", "What the sender's player is called"),
    zeros = P.bytes("doom_greeting.zeros", "Zeros"),
    host = P.bytes("doom_greeting.host", "Number of the host's session"),
    begun = P.uint8("doom_greeting.begun", "The game has begun"),
    extra = P.uint8("doom_greeting.extra", "Packets repeat commands"),
    ahead = P.uint8("doom_greeting.ahead", "Window"),
    rate = P.uint8("doom_greeting.rate", "Tics a second"),
    limit = P.uint32("doom_greeting.limit", "Most bytes of the demo"),
    skill = P.uint8("doom_greeting.skill", "Skill"),
    deathmatch = P.uint8("doom_greeting.deathmatch", "Deathmatch"),
    nomonsters = P.uint8("doom_greeting.nomonsters", "No monsters"),
    respawn = P.uint8("doom_greeting.respawn", "Monsters respawn"),
    episode = P.uint8("doom_greeting.episode", "Episode"),
    map = P.uint8("doom_greeting.map", "Map"),
    policy = named("doom_greeting.policy", "What becomes of a player who vanishes", POLICIES),
    seconds = P.uint8("doom_greeting.seconds", "After so many seconds"),
    own = P.bytes("doom_greeting.own", "The host's own"),
    holder = P.none("doom_greeting.holder", "Holder"),
    held = named("doom_greeting.holder.held", "Held", HELD),
    session = P.bytes("doom_greeting.holder.number", "Number of its session"),
    address = P.bytes("doom_greeting.holder.address", "Address"),
    holder_called = P.bytes("doom_greeting.holder.called", "What its player is called"),
    reason = named("doom_greeting.reason", "Reason", REASONS),
    hint = named("doom_greeting.hint", "Hint", HINTS),
    tag = P.bytes("doom_greeting.tag", "Tag, not checked"),
}
greeting.fields = g

local group, severity = expert.group, expert.severity
local function wrong(name, text) return ProtoExpert.new(name, text, group.PROTOCOL, severity.ERROR) end
local faults = {
    short = wrong("doom.short", "Short: fewer than eight bytes"),
    many = wrong("doom.many", "Many: the count is above 12"),
    length = wrong("doom.length", "Length: not that of the count"),
    sum = wrong("doom.sum", "Sum: the checksum is wrong"),
}
local asks = ProtoExpert.new("doom.retransmit", "Commands are asked for again", group.SEQUENCE, severity.NOTE)
doom.experts = { faults.short, faults.many, faults.length, faults.sum, asks }
local unlike = wrong("doom_seal.unlike", "The packet differs from what stands in front of it")
local refused = wrong("doom_seal.refused", "Refused")
seal.experts = { unlike, refused }
local unreported = wrong("doom_report.none", "No report")
report.experts = { unreported }
local unread = wrong("doom_greeting.refused", "Refused")
greeting.experts = { unread }

-- The bytes of a range from a place on; an empty range cannot begin at the end of another.
local function from(r, place) return place < r:len() and r(place) or r(0, 0) end

local function sum_of(r)
    local sum = 0x1234567
    for word = 1, r:len() / 4 - 1 do sum = (sum + word * r(4 * word, 4):le_uint()) % SUM end
    return sum
end

-- The first fault that bytes have as a datagram of 1997.
local function fault_of(r)
    if r:len() < 8 then return "short" end
    local count = r(7, 1):uint()
    if count > MAX_COMMANDS then return "many" end
    if r:len() ~= 8 + 8 * count then return "length" end
    if r(0, 4):le_uint() % SUM ~= sum_of(r) then return "sum" end
end

local function has(r, flag) return math.floor(r(0, 4):le_uint() / SUM / flag) % 2 == 1 end

local function tics(first, count, wrap)
    if count == 0 then return "no commands" end
    if count == 1 then return "tic " .. first end
    return ("tics %d-%d"):format(first, (first + count - 1) % wrap)
end

-- What a datagram of 1997 says, in few words; with the exact tics where they stand in front of it.
local function words_of(r, exact)
    local fault = fault_of(r)
    if fault then return "refused, " .. fault end
    local ask, start, player, words = r(4, 1):uint(), r(5, 1):uint(), r(6, 1):uint(), nil
    if has(r, SETUP) then
        local episode, map = math.floor(start / 64), start % 64
        words = ("SETUP version %d episode %d map %d skill %d"):format(player, episode, map, ask % 16)
    else
        words = tics(exact and exact.start or start, r(7, 1):uint(), exact and 2 ^ 32 or 256)
        if not exact then words = ("player %d: %s"):format(player, words) end
        if has(r, RETRANSMIT) then words = words .. ", RETRANSMIT from " .. (exact and exact.ask or ask) end
    end
    if has(r, EXIT) then words = words .. ", EXIT" end
    return has(r, KILL) and words .. ", KILL" or words
end

local function add_all(tree, fields, r)
    for _, field in ipairs(fields) do tree:add_le(field, r) end
end

local function add_command(tree, r, tic)
    local item = tree:add(f.cmd, r)
    local forward, side, turn, pressed = r(0, 1):int(), r(1, 1):int(), r(2, 2):le_int(), r(7, 1):uint()
    local words = " of tic %d: forward %d side %d turn %d buttons %d"
    item:append_text(words:format(tic, forward, side, turn, pressed))
    item:add(f.tic, tic):set_generated()
    item:add(f.forward, r(0, 1))
    item:add(f.side, r(1, 1))
    item:add_le(f.turn, r(2, 2))
    item:add_le(f.mark, r(4, 2))
    item:add(f.chat, r(6, 1))
    add_all(item:add(f.buttons, r(7, 1)), { f.attack, f.use, f.change, f.weapon }, r(7, 1))
end

local function add_checksum_word(root, r, fault)
    local sum = root:add_le(f.sum, r(0, 4))
    if fault == "sum" then sum:add_proto_expert_info(faults.sum) end
    if not fault or fault == "sum" then root:add(f.right, sum_of(r)):set_generated() end
    root:add(f.status, not fault and 1 or fault == "sum" and 0 or 2):set_generated()
    add_all(root:add_le(f.flags, r(0, 4)), { f.exit, f.again, f.setup, f.kill }, r(0, 4))
end

-- The fields of a datagram of 1997, as far as its bytes go.
local function add_datagram(tree, r, exact)
    local fault = fault_of(r)
    local root = tree:add(doom, r):append_text(": " .. words_of(r, exact))
    if fault and fault ~= "sum" then root:add_proto_expert_info(faults[fault]) end
    if fault == "short" then return end
    add_checksum_word(root, r, fault)
    local ask, start = root:add(f.ask, r(4, 1)), root:add(f.start, r(5, 1))
    local player, count = root:add(f.player, r(6, 1)), r(7, 1):uint()
    root:add(f.count, r(7, 1))
    if has(r, SETUP) then
        player:add(f.version, r(6, 1))
        add_all(ask, { f.skill, f.respawn, f.nomonsters, f.deathmatch }, r(4, 1))
        add_all(start, { f.map, f.episode }, r(5, 1))
    elseif has(r, RETRANSMIT) then
        ask:add_proto_expert_info(asks)
    end
    local first, wrap = exact and exact.start or r(5, 1):uint(), exact and 2 ^ 32 or 256
    for k = 0, math.min(count, MAX_COMMANDS, math.floor(r:len() / 8) - 1) - 1 do
        add_command(root, r(8 + 8 * k, 8), (first + k) % wrap)
    end
end

-- The exact numbers in nine bytes: the start, and the tic that is asked for; or none where they lack the form.
local function exact_in(r)
    local asked, ask = r(4, 1):uint(), r(5, 4):le_uint()
    if asked > 1 or asked == 0 and ask > 0 then return nil end
    return { start = r(0, 4):le_uint(), ask = asked == 1 and ask or nil }
end

local function add_exact(tree, r)
    tree:add_le(f.exact_start, r(0, 4))
    tree:add(f.exact_asked, r(4, 1))
    tree:add_le(f.exact_ask, r(5, 4))
end

-- Whether receivers drop a packet because its own bytes differ from its exact numbers and its sender.
local function is_unlike(r, exact, sender)
    if fault_of(r) or has(r, SETUP) then return false end
    return r(6, 1):uint() ~= sender or r(5, 1):uint() ~= exact.start % 256
        or r(4, 1):uint() ~= (exact.ask or 0) % 256 or has(r, RETRANSMIT) ~= (exact.ask ~= nil)
end

-- A command of eight bytes by the one before it: a bit for each byte that differs, and these bytes.
local function difference_of(last, command)
    local bits, changed = 0, ""
    for k = 1, #NO_COMMAND do
        if command:byte(k) ~= last:byte(k) then
            bits, changed = bits + 2 ^ (k - 1), changed .. command:sub(k, k)
        end
    end
    return string.char(bits) .. changed
end

-- The commands of a run, each by the one before it.
local function differences_of(commands)
    local text, last = "", NO_COMMAND
    for place = 1, #commands, #last do
        local command = commands:sub(place, place + #last - 1)
        text, last = text .. difference_of(last, command), command
    end
    return text
end

-- The command that a difference tells at the front of bytes, whatever they are; and what stands behind it.
local function command_in(last, bytes)
    local bits, rest, command = bytes:byte(1) or 0, bytes:sub(2), ""
    for k = 1, #NO_COMMAND do
        if math.floor(bits / 2 ^ (k - 1)) % 2 == 1 then
            command, rest = command .. rest:sub(1, 1), rest:sub(2)
        else
            command = command .. last:sub(k, k)
        end
    end
    return command, rest
end

-- So many commands that differences tell at the front of bytes.
local function differences_in(bytes, count)
    local commands, last = "", NO_COMMAND
    for _ = 1, count do
        last, bytes = command_in(last, bytes)
        commands = commands .. last
    end
    return commands
end

-- The commands of a run behind its head, and how many bytes they take; or none if these are not the bytes of
-- those commands: whole, unless differences are shorter.
local function commands_in(bytes, head)
    local size, are_told = head % THIRD * #NO_COMMAND, head >= DIFFERENCES
    local commands = are_told and differences_in(bytes, head % THIRD) or bytes:sub(1, size)
    if #commands ~= size then return nil end
    local text = differences_of(commands)
    if (#text < size) ~= are_told then return nil end
    if not are_told then return commands, size end
    if bytes:sub(1, #text) == text then return commands, #text end
end

-- The run at the front of bytes, which may be of a third player, or none if they lack the form.
local function run_in(r, head)
    local third = math.floor(head / THIRD) % 2 == 1
    local front = third and 6 or 5
    if head > MAX_HEAD or head % THIRD == 0 or head % THIRD > MAX_RUN or r:len() < front then return nil end
    if third and r(1, 1):uint() > 3 then return nil end
    local commands, size = commands_in(from(r, front):raw(), head)
    if not commands then return nil end
    return { run = head % THIRD, third = third and r(1, 1), all = r(0, front + size), front = front,
        commands = commands, exact = { start = r(front - 4, 4):le_uint() } }
end

-- The part at the front of bytes, or none if they lack the form.
local function part_in(r)
    local head = r:len() > 0 and r(0, 1):uint() or 0
    if head > 0 then return run_in(r, head) end
    if r:len() < 11 then return nil end
    local exact, size = exact_in(r(1, 9)), r(10, 1):uint()
    if not exact or size > MAX_DATAGRAM or r:len() < 11 + size then return nil end
    return { run = 0, all = r(0, 11 + size), exact = exact, packet = from(r(0, 11 + size), 11) }
end

-- The parts, as far as they have the form; and whether all bytes have it.
local function parts_in(r)
    local parts, place = {}, 1
    if r:len() == 0 or r(0, 1):uint() > MAX_PARTS then return parts, false end
    for k = 1, r(0, 1):uint() do
        parts[k] = part_in(from(r, place))
        if not parts[k] then return parts, false end
        place = place + parts[k].all:len()
    end
    return parts, place == r:len()
end

-- The commands of a run: as they stand, or, where they stand as differences, as bytes of their own.
local function add_run(item, part)
    local first, told = part.exact.start, ByteArray.new(part.commands, true)
    local r = from(part.all, part.front)
    if r:len() < #part.commands then r = told:tvb("Commands")(0, #part.commands) end
    item:add_le(f.exact_start, part.all(part.front - 4, 4))
    for k = 0, part.run - 1 do add_command(item, r(8 * k, 8), (first + k) % 2 ^ 32) end
    return tics(first, part.run, 2 ^ 32)
end

local function add_part(tree, part, sender)
    local item, r = tree:add(l.part, part.all), part.all
    item:add(l.run, r(0, 1), part.run)
    if part.third then item:add(l.third, part.third) end
    if part.run > 0 then
        local words = add_run(item, part)
        return part.third and ("player %d: %s"):format(part.third:uint(), words) or words
    end
    add_exact(item, r(1, 9))
    item:add(l.size, r(10, 1))
    if is_unlike(part.packet, part.exact, sender) then item:add_proto_expert_info(unlike) end
    add_datagram(item, part.packet, part.exact)
    return words_of(part.packet, part.exact)
end

-- The first fault of a report's bytes behind those of some players, where the next may have a number from
-- `least` on; or none where a player's bytes stand in front.
local function told_fault(r, players, least)
    if players == MAX_TOLD then return "third" end
    if r:len() < 6 then return "short" end
    local player, count, last = r(0, 1):uint(), r(1, 4):le_uint(), r(5, 1):uint()
    if player > 3 then return "player" end
    if player < least then return "order" end
    if last > MAX_TAIL then return "many" end
    if last > count then return "surplus" end
    if r:len() < 6 + 8 * last then return "cut" end
end

-- What a report tells of each player, as far as it has the form; and the first fault of the form.
local function told_in(r)
    local told, place, least = {}, 1, 0
    if math.floor(r(0, 1):uint() / 16) % 8 > 0 then return told, "bits" end
    while place < r:len() do
        local fault = told_fault(r(place), #told, least)
        if fault then return told, fault end
        local size = 6 + 8 * r(place + 5, 1):uint()
        told[#told + 1] = r(place, size)
        place, least = place + size, r(place, 1):uint() + 1
    end
    return told
end

local function add_told(tree, r)
    local item, player, count, last = tree:add(t.told, r), r(0, 1):uint(), r(1, 4):le_uint(), r(5, 1):uint()
    item:append_text((" of player %d"):format(player))
    item:add(t.player, r(0, 1))
    item:add_le(t.count, r(1, 4))
    item:add(t.last, r(5, 1))
    for k = 0, last - 1 do add_command(item, r(6 + 8 * k, 8), count - last + k) end
    return ("has %d of player %d"):format(count, player)
end

-- A report; and what it says, in few words. What has another form changes nothing, and is no report.
local function add_report(tree, r)
    local root, first, words = tree:add(report, r), r(0, 1):uint(), "given up"
    local all, fault = told_in(r)
    if fault then
        root:add_proto_expert_info(unreported, "No report, for its " .. fault)
        return "no report, " .. fault
    end
    add_all(root:add(t.gone, r(0, 1)), { t.gone0, t.gone1, t.gone2, t.gone3 }, r(0, 1))
    root:add(t.left, r(0, 1))
    for player = 0, 3 do
        if math.floor(first / 2 ^ player) % 2 == 1 then words = ("%s %d"):format(words, player) end
    end
    if first % 16 == 0 then words = words .. " nobody" end
    if first > 127 then words = words .. ", left" end
    for _, one in ipairs(all) do words = words .. "; " .. add_told(root, one) end
    return words
end

-- How many bytes of a report are announced, in what stands between the head of a link's datagram and its tag.
local function report_size(r) return r(REPORT_SIZE, 2):le_uint() end

-- The parts, behind the report; none where its bytes are too many.
local function behind_report(r)
    if report_size(r) > MAX_REPORT then return r(0, 0) end
    return from(r, REPORT + report_size(r))
end

-- What stands between the head of a link's datagram and its tag; and what it says, in few words.
local function add_link(tree, r, sender)
    local root, parts = tree:add(link, r), behind_report(r)
    root:add_le(l.number, r(0, 4))
    root:add(l.lead, r(4, 1))
    root:add(l.holes, r(5, 1))
    root:add(l.cause, r(6, 1))
    root:add_le(l.made, r(7, 4))
    root:add_le(l.echo, r(11, 4))
    for player = 0, 3 do root:add_le(l.got, r(15 + 4 * player, 4)):append_text(" of player " .. player) end
    root:add_le(l.report, r(REPORT_SIZE, 2))
    local words = ("number %d, %s, made %d, echo %d"):format(r(0, 4):le_uint(), CAUSES[r(6, 1):uint()] or "?",
        r(7, 4):le_uint(), r(11, 4):le_uint())
    if parts:len() == 0 then return words end
    if report_size(r) > 0 then words = words .. "; " .. add_report(root, r(REPORT, report_size(r))) end
    root:add(l.parts, parts(0, 1))
    for _, part in ipairs((parts_in(parts))) do words = words .. "; " .. add_part(root, part, sender) end
    return words
end

local function body_of(r) return r(HEAD, r:len() - HEAD - TAG) end

-- For what receivers of any game refuse sealed bytes, as far as it is seen without the key.
local function seal_fault(r)
    local kind = r:len() > HEAD and r(1, 1):uint()
    local sizes = SIZES[kind]
    if not sizes or r(0, 1):uint() < 1 or r(0, 1):uint() > 2 then return "suite or kind" end
    if r:len() < sizes[1] or r:len() > sizes[2] then return "length" end
    local is_formed = exact_in(body_of(r)(0, 9))
    if kind == LINK then
        is_formed = body_of(r)(6, 1):uint() <= MAX_CAUSE and select(2, parts_in(behind_report(body_of(r))))
    end
    if not is_formed then return "form" end
end

-- An envelope or a link's datagram; and what it says, in few words.
local function add_sealed(tree, r)
    local fault, root = seal_fault(r), tree:add(seal, r)
    if fault then root:add_proto_expert_info(refused, "Refused for its " .. fault) end
    root:add(s.suite, r(0, 1))
    root:add(s.kind, r(1, 1))
    if fault == "suite or kind" or fault == "length" then return "refused, " .. fault end
    root:add(s.game, r(2, 8))
    root:add(s.from, r(10, 1))
    root:add(s.to, r(11, 1))
    root:add(s.tag, r(r:len() - TAG, TAG))
    local kind, sender, body, words = r(1, 1):uint(), r(10, 1):uint(), body_of(r), nil
    if kind == LINK then
        words = add_link(tree, body, sender)
    else
        local exact, packet = exact_in(body(0, 9)), from(body, 9)
        add_exact(root, body(0, 9))
        if exact and is_unlike(packet, exact, sender) then root:add_proto_expert_info(unlike) end
        add_datagram(tree, packet, exact)
        words = words_of(packet, exact)
    end
    return ("%d > %d: %s%s"):format(sender, r(11, 1):uint(), words, fault and ", refused, " .. fault or "")
end

local function is_in(r, place, least, most)
    local number = r(place, 1):uint()
    return least <= number and number <= most
end

local function is_zero(r) return r:raw() == ("\0"):rep(r:len()) end

local function is_holder(r) return is_in(r, 0, 1, 2) or is_zero(r) end

-- Whether the terms of a game are in range.
local function are_terms(r)
    local limit = r(4, 4):le_uint()
    return is_in(r, 0, 2, 4) and is_in(r, 1, 0, 1) and is_in(r, 2, 1, 12) and is_in(r, 3, 1, 35)
        and 1024 <= limit and limit <= 16777216 and is_in(r, 8, 0, 4) and is_in(r, 9, 0, 2)
        and is_in(r, 10, 0, 1) and is_in(r, 11, 0, 1) and is_in(r, 12, 1, 3) and is_in(r, 13, 1, 32)
        and (is_in(r, 14, 1, 1) and is_in(r, 15, 0, 0) or is_in(r, 14, 2, 3) and is_in(r, 15, 3, 255))
end

-- Whether a greeting of each sort, which has its length, has its form.
local FORMS = {
    [CALL] = function(r)
        return is_in(r, 48, 0, 3) and is_in(r, 49, 0, 4) and not is_in(r, 49, 1, 1) and is_zero(r(82, 483))
    end,
    [SEATING] = function(r)
        if not are_terms(r(TERMS, 288)) or not is_in(r, 81, 0, 1) then return false end
        for seat = 0, 2 do
            if not is_holder(r(SEATS + SEAT * seat, SEAT)) then return false end
        end
        return is_in(r, 80, 1, r(TERMS, 1):uint() - 1)
    end,
    [REFUSAL] = function(r)
        return is_in(r, 48, 1, 6) and (is_in(r, 48, 4, 4) or is_in(r, 49, 0, 0))
    end,
    [HINT] = function(r)
        return is_in(r, 0, 0, 0) and is_in(r, 28, 1, 2)
            and (is_in(r, 28, 2, 2) or is_in(r, 10, VERSION, VERSION))
    end,
}

-- Whether bytes are taken for a greeting: by their kind and name, or, if the name is bad, their kind and suite.
local function is_greeting(r)
    return r:len() > 9 and is_in(r, 1, GREETING, GREETING) and (r(2, 8):raw() == NAME or is_in(r, 0, 0, 2))
end

-- The first fault of bytes as a greeting of the sort that they name, as far as it is seen without the key.
local function greeting_fault(r)
    if r:len() < 29 then return "short" end
    if r(2, 8):raw() ~= NAME then return "kind" end
    local sort = r(11, 1):uint()
    if not SORTS[sort] then return "what" end
    if sort ~= HINT and not is_in(r, 10, VERSION, VERSION) then return "version" end
    if r:len() ~= LENGTHS[sort] then return "length" end
    if sort ~= HINT and not is_in(r, 0, 1, 2) then return "suite" end
    if not FORMS[sort](r) then return "form" end
end

-- What calls, seatings and refusals have behind the number; and the first words of them.
local function add_count(root, r, sort)
    root:add_le(g.count, r(28, 4))
    root:add(g.cookie, r(32, 16))
    return ("%s %d"):format(sort, r(28, 4):le_uint())
end

-- Bytes one after another, each a field.
local function add_bytes(root, r, fields)
    for place, field in ipairs(fields) do root:add(field, r(place - 1, 1)) end
end

local function add_terms(root, r)
    add_bytes(root, r(0, 4), { g.players, g.extra, g.ahead, g.rate })
    root:add_le(g.limit, r(4, 4))
    local choice = { g.skill, g.deathmatch, g.nomonsters, g.respawn, g.episode, g.map, g.policy, g.seconds }
    add_bytes(root, r(8, 8), choice)
    root:add(g.identity, r(16, 16))
    root:add(g.own, r(32, 256))
end

local function add_holder(root, r, seat)
    local item = root:add(g.holder, r):append_text((" of seat %d"):format(seat))
    item:add(g.held, r(0, 1))
    if is_in(r, 0, 0, 0) then return end
    item:add(g.session, r(1, 16))
    item:add(g.address, r(17, 32))
    item:add(g.holder_called, r(49, 16))
end

-- The fields of a greeting of each sort between the number and the tag; and what they say, in few words.
local ADDERS = {
    [CALL] = function(root, r)
        local words = add_count(root, r, "call")
        for place, name in ipairs({ "seat", "players" }) do
            local item, number = root:add(g[name], r(47 + place, 1)), r(47 + place, 1):uint()
            if number == 0 then item:append_text(": any") end
            if number > 0 then words = ("%s, %s %d"):format(words, name, number) end
        end
        root:add(g.identity, r(50, 16))
        root:add(g.called, r(66, 16))
        root:add(g.zeros, r(82, 483))
        return words
    end,
    [SEATING] = function(root, r)
        local words = add_count(root, r, "seating")
        root:add(g.host, r(48, 16))
        root:add(g.called, r(64, 16))
        root:add(g.seat, r(80, 1))
        root:add(g.begun, r(81, 1))
        add_terms(root, r(TERMS, 288))
        for seat = 1, 3 do add_holder(root, r(SEATS + SEAT * (seat - 1), SEAT), seat) end
        words = ("%s, seat %d, players %d"):format(words, r(80, 1):uint(), r(TERMS, 1):uint())
        return words .. (is_in(r, 81, 1, 1) and ", begun" or "")
    end,
    [REFUSAL] = function(root, r)
        local words, reason, players = add_count(root, r, "refusal"), r(48, 1):uint(), r(49, 1):uint()
        root:add(g.reason, r(48, 1))
        root:add(g.players, r(49, 1))
        return words .. ", " .. (REASONS[reason] or "?") .. (reason == 4 and (": %d"):format(players) or "")
    end,
    [HINT] = function(root, r)
        local hint, version = r(28, 1):uint(), r(10, 1):uint()
        root:add(g.hint, r(28, 1))
        return "hint, " .. (HINTS[hint] or "?") .. (hint == 2 and (": %d"):format(version) or "")
    end,
}

-- A greeting; and what it says, in few words.
local function add_greeting(tree, r)
    local fault, root = greeting_fault(r), tree:add(greeting, r)
    if fault then root:add_proto_expert_info(unread, "Refused: " .. fault) end
    root:add(g.suite, r(0, 1))
    root:add(g.kind, r(1, 1))
    if fault == "short" or fault == "kind" then return "refused, " .. fault end
    root:add(g.name, r(2, 8))
    root:add(g.version, r(10, 1))
    root:add(g.sort, r(11, 1))
    root:add(g.number, r(12, 16))
    if fault and fault ~= "suite" and fault ~= "form" then return "refused, " .. fault end
    local sort = r(11, 1):uint()
    local words = ADDERS[sort](root, r)
    if sort ~= HINT then root:add(g.tag, r(r:len() - TAG, TAG)) end
    return words .. (fault and ", refused, " .. fault or "")
end

-- Whether nothing is wrong with bytes: as a datagram of 1997, as a greeting, or sealed, from a player to one.
local function is_right(r)
    if not fault_of(r) then return true end
    if is_greeting(r) then return not greeting_fault(r) end
    if seal_fault(r) or r(10, 1):uint() > 3 or r(11, 1):uint() > 3 then return false end
    if r(1, 1):uint() ~= PACKET then return true end
    local packet = from(body_of(r), 9)
    return not fault_of(packet) and not is_unlike(packet, exact_in(body_of(r)(0, 9)), r(10, 1):uint())
end

-- Whether all bytes are there: what the capture cut is not judged.
local function is_whole(tvb) return tvb:len() > 0 and tvb:len() == tvb:reported_len() end

function greeting.dissector(tvb, pinfo, tree)
    if not is_whole(tvb) or tvb:len() < 2 then return 0 end
    pinfo.cols.protocol = greeting.name
    pinfo.cols.info = add_greeting(tree, tvb())
    return tvb:len()
end

function seal.dissector(tvb, pinfo, tree)
    if not is_whole(tvb) or tvb:len() < 2 then return 0 end
    if is_greeting(tvb()) then return greeting.dissector(tvb, pinfo, tree) end
    pinfo.cols.protocol = (PROTOCOLS[tvb(1, 1):uint()] or seal).name
    pinfo.cols.info = add_sealed(tree, tvb())
    return tvb:len()
end

function doom.dissector(tvb, pinfo, tree)
    if not is_whole(tvb) then return 0 end
    if fault_of(tvb()) and is_greeting(tvb()) then return greeting.dissector(tvb, pinfo, tree) end
    if fault_of(tvb()) and seal_fault(tvb()) ~= "suite or kind" then return seal.dissector(tvb, pinfo, tree) end
    pinfo.cols.protocol = doom.name
    pinfo.cols.info = words_of(tvb())
    add_datagram(tree, tvb())
    return tvb:len()
end

doom:register_heuristic("udp", function(tvb, pinfo, tree)
    return is_whole(tvb) and is_right(tvb()) and doom.dissector(tvb, pinfo, tree) > 0
end)

local udp, ports = DissectorTable.get("udp.port"), "5029-5032"
doom.prefs.ports = Pref.range("UDP ports", ports, "All bytes on these ports are taken for a netgame's", 65535)
udp:add(ports, doom)
udp:add_for_decode_as(seal)

function doom.prefs_changed()
    udp:remove(ports, doom)
    ports = doom.prefs.ports
    udp:add(ports, doom)
end
