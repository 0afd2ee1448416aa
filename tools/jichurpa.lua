-- Reads the messages of moving in Wireshark and tshark: RESUME, RESUME_ACK and NAK_STOPPED (docs/wire.md).
--
--     tshark -X lua_script:tools/jichurpa.lua -r FILE
--
-- Wireshark's own reader of RoCEv2 (infiniband) reads the rest. This one adds what stands in a vendor's opcodes and in a
-- vendor's NAK code, behind what that one read. It also finds RoCEv2 between ports other than 4791, and shows the payloads
-- as bytes, where Wireshark would guess at what they are. It knows the datagrams by their CRC, which is 0.

local RESUME, RESUME_ACK, ACKNOWLEDGE = 0x1E, 0x1F, 0x11
local NAK_STOPPED = 0x65
local SYNDROME_MASK = 0x7F  -- bit 7 of the syndrome is ignored
local BASE, CRC, BODY = 12, 4, 12
local ROCE_PORT = 4791

local is_new, jichurpa = pcall(Proto, "jichurpa", "Jichurpa messages of moving")
if not is_new then
    return  -- it is installed and loaded already
end
local fields = {
    message = ProtoField.string("jichurpa.message", "Message"),
    moves = ProtoField.uint32("jichurpa.moves", "Move count"),
    address = ProtoField.ipv4("jichurpa.address", "New address"),
    port = ProtoField.uint16("jichurpa.port", "New UDP port"),
    zero = ProtoField.uint16("jichurpa.zero", "Written 0 and ignored", base.HEX),
    crc = ProtoField.uint32("jichurpa.crc", "CRC, written 0 and ignored", base.HEX),
}
jichurpa.fields = fields

local opcode_field = Field.new("infiniband.bth.opcode")
local dest_field = Field.new("infiniband.bth.destqp")
local syndrome_field = Field.new("infiniband.aeth.syndrome")
local count_field = Field.new("infiniband.aeth.msn")
local datagram_field = Field.new("udp.payload")

-- A datagram as this project writes it: whole words, a known opcode, version 0, P_Key FFFF, the zero byte, and a CRC of 0.
local function is_datagram(buffer)
    local length = buffer:len()
    if length < BASE + CRC or length % 4 ~= 0 then
        return false
    end
    local opcode = buffer(0, 1):uint()
    return (opcode <= 0x14 or opcode == RESUME or opcode == RESUME_ACK)
        and buffer(1, 1):bitfield(4, 4) == 0 and buffer(2, 3):uint() == 0xFFFF00 and buffer(length - CRC, CRC):uint() == 0
end

local function tell(pinfo, name, dest, rest)
    pinfo.cols.info:set(string.format("%s QP=0x%06x %s", name, dest, rest))
end

-- The body of RESUME and RESUME_ACK, and the CRC behind it.
local function resume(name, place, buffer, pinfo, tree)
    if buffer:len() < place + BASE + BODY + CRC then
        return
    end
    local body = buffer(place + BASE, BODY + CRC)
    local branch = tree:add(jichurpa, body)
    branch:add(fields.message, name):set_generated()
    branch:add(fields.moves, body(0, 4))
    branch:add(fields.address, body(4, 4))
    branch:add(fields.port, body(8, 2))
    branch:add(fields.zero, body(10, 2))
    branch:add(fields.crc, body(12, 4))
    local address = string.format("%s:%d", tostring(body(4, 4):ipv4()), body(8, 2):uint())
    tell(pinfo, name, dest_field().value, string.format("moves %d at %s", body(0, 4):uint(), address))
end

-- NAK_STOPPED, whose move count stands where else the count of messages stands.
local function stopped(pinfo, tree)
    local syndrome, count = syndrome_field(), count_field()
    if not syndrome or bit.band(syndrome.value, SYNDROME_MASK) ~= NAK_STOPPED then
        return
    end
    local branch = tree:add(jichurpa, count.range)
    branch:add(fields.message, "NAK_STOPPED"):set_generated()
    branch:add(fields.moves, count.range)
    tell(pinfo, "NAK_STOPPED", dest_field().value, string.format("moves %d", count.value))
end

function jichurpa.dissector(buffer, pinfo, tree)
    local opcode, datagram = opcode_field(), datagram_field()
    if not opcode or not datagram or not is_datagram(datagram.range) then
        return
    elseif opcode.value == RESUME then
        resume("RESUME", opcode.offset, buffer, pinfo, tree)
    elseif opcode.value == RESUME_ACK then
        resume("RESUME_ACK", opcode.offset, buffer, pinfo, tree)
    elseif opcode.value == ACKNOWLEDGE then
        stopped(pinfo, tree)
    end
end

register_postdissector(jichurpa, true)

local ports = Proto("jichurpa_ports", "RoCEv2 between ports other than 4791")
ports:register_heuristic("udp", function(buffer, pinfo, tree)
    local reader = DissectorTable.get("udp.port"):get_dissector(ROCE_PORT)
    if not reader or not is_datagram(buffer) then
        return false
    end
    reader:call(buffer, pinfo, tree)
    return true
end)

local payloads = Proto("jichurpa_payloads", "Payloads of Jichurpa datagrams")
payloads:register_heuristic("infiniband.payload", function(buffer, pinfo, tree)
    local datagram = datagram_field()
    if not datagram or not is_datagram(datagram.range) then
        return false
    end
    -- A READ request and an empty message have none; an empty range cannot be made.
    if buffer:len() > 0 then
        Dissector.get("data"):call(buffer:range():tvb(), pinfo, tree)
    end
    return true
end)
