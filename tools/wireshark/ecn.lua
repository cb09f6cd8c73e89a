-- ecn.lua: the ECN feedback packet and the ECN summary block of RFC 6679 (sections 5.1 and 5.2) by name, in Wireshark and tshark.
--
--   tshark -X lua_script:tools/wireshark/ecn.lua -r CAPTURE -Y rtpecn
--
-- Wireshark's own RTCP dissector finds the packets of a compound and shows these two as unknown. This one runs behind it, on each packet that it
-- found, however that was recognised as RTCP; what is encrypted is SRTCP to it and left alone. Fields have the names of the RFC. `rtpecn.malformed`
-- marks what does not fit its size.

local proto = Proto("rtpecn", "RTP ECN Feedback (RFC 6679)")

local RTPFB, FMT_ECN, XR, BT_ECN = 205, 8, 207, 13
local HEADER, FEEDBACK, ENTRY = 4, 32, 20 -- bytes

local field = {
    feedback = ProtoField.none("rtpecn.feedback", "ECN Feedback Report"),
    packet_sender = ProtoField.uint32("rtpecn.packet_sender", "SSRC of packet sender", base.HEX_DEC),
    media_source = ProtoField.uint32("rtpecn.media_source", "SSRC of media source", base.HEX_DEC),
    highest = ProtoField.uint32("rtpecn.highest", "Extended Highest Sequence Number"),
    summary = ProtoField.none("rtpecn.summary", "ECN Summary Report"),
    bt = ProtoField.uint8("rtpecn.bt", "BT"),
    reserved = ProtoField.uint8("rtpecn.reserved", "Reserved"),
    block_length = ProtoField.uint16("rtpecn.block_length", "Block Length"),
    entry = ProtoField.none("rtpecn.entry", "ECN Summary Report data block"),
    media_sender = ProtoField.uint32("rtpecn.media_sender", "SSRC of Media Sender", base.HEX_DEC),
    ect0 = ProtoField.uint32("rtpecn.ect0", "ECT (0) Counter"),
    ect1 = ProtoField.uint32("rtpecn.ect1", "ECT (1) Counter"),
    ce = ProtoField.uint16("rtpecn.ce", "ECN-CE Counter"),
    not_ect = ProtoField.uint16("rtpecn.not_ect", "not-ECT Counter"),
    lost = ProtoField.uint16("rtpecn.lost", "Lost Packets Counter"),
    duplication = ProtoField.uint16("rtpecn.duplication", "Duplication Counter"),
}
proto.fields = field

local malformed = ProtoExpert.new("rtpecn.malformed", "Malformed ECN report", expert.group.MALFORMED, expert.severity.ERROR)
proto.experts = { malformed }

local rtcp_packets = Field.new("rtcp")

-- Fields and their bytes, in the order of the figures.
local counters = { { field.ect0, 4 }, { field.ect1, 4 }, { field.ce, 2 }, { field.not_ect, 2 }, { field.lost, 2 }, { field.duplication, 2 } }
local feedback_head = { { field.packet_sender, 4 }, { field.media_source, 4 }, { field.highest, 4 } }
local block_head = { { field.bt, 1 }, { field.reserved, 1 }, { field.block_length, 2 } }
local entry_head = { { field.media_sender, 4 } }

-- Adds the fields that lie before `stop`, from byte `at` on. Gives where the next one would be, behind `stop` where one did not fit.
local function add_fields(tree, bytes, at, stop, fields)
    for _, each in ipairs(fields) do
        if at + each[2] <= stop then
            tree:add(each[1], bytes(at, each[2]))
        end
        at = at + each[2]
    end
    return at
end

-- Where the body of a packet ends: what is there of it, its padding taken off. Nothing is taken off where the padding's count is against the rules
-- or lies past the capture, and the second value then says why.
local function body_end(bytes, there)
    local size = 4 * (bytes(2, 2):uint() + 1)
    if there < size then
        return there, string.format("%d of the packet's %d bytes are there", there, size)
    end
    if bytes(0, 1):bitfield(2, 1) == 0 then
        return size
    end
    local padding = bytes(size - 1, 1):uint()
    if padding < 4 or padding % 4 ~= 0 or padding > size - HEADER then
        return size, string.format("%d bytes of padding", padding)
    end
    return size - padding
end

local function mark(tree, why)
    tree:add_proto_expert_info(malformed, "Malformed ECN report: " .. why)
end

local function is_feedback(bytes)
    return bytes(1, 1):uint() == RTPFB and bytes(0, 1):bitfield(3, 5) == FMT_ECN
end

local function show_feedback(root, bytes, there)
    local stop, why = body_end(bytes, there)
    local tree = root:add(field.feedback, bytes(0, there))
    local at = add_fields(tree, bytes, HEADER, stop, feedback_head)
    add_fields(tree, bytes, at, stop, counters)
    if why or stop ~= FEEDBACK then
        mark(tree, why or string.format("%d bytes, not %d", stop, FEEDBACK))
    end
end

-- Where the ECN summary blocks of an XR packet begin and end; none in another packet. A header that is cut off ends behind its 4 bytes.
local function summary_blocks(bytes, there)
    local found, at, stop = {}, 2 * HEADER, body_end(bytes, there)
    while bytes(1, 1):uint() == XR and at < stop do
        local last = at + HEADER
        if last <= stop then
            last = last + 4 * bytes(at + 2, 2):uint()
        end
        if bytes(at, 1):uint() == BT_ECN then
            table.insert(found, { at = at, last = last })
        end
        at = last
    end
    return found
end

local function show_entries(tree, bytes, at, stop)
    while at < stop do
        local entry = tree:add(field.entry, bytes(at, math.min(ENTRY, stop - at)))
        add_fields(entry, bytes, add_fields(entry, bytes, at, stop, entry_head), stop, counters)
        at = at + ENTRY
    end
end

local function show_summary(root, bytes, there, block)
    local stop, why = body_end(bytes, there)
    local shown = math.min(block.last, stop)
    local tree = root:add(field.summary, bytes(block.at, shown - block.at))
    local at = add_fields(tree, bytes, block.at, stop, block_head)
    if why or block.last > stop then
        mark(tree, why or "the block passes its packet")
    end
    if (block.last - at) % ENTRY == 0 then
        show_entries(tree, bytes, at, shown)
    else -- to be discarded (section 5.2)
        mark(tree, "the block length is no multiple of 5")
    end
end

-- Shows a packet that is one of the two. Gives what it is, or nil.
local function show(tree, bytes)
    local there = bytes:captured_len()
    if there < HEADER then
        return nil
    end
    if is_feedback(bytes) then
        show_feedback(tree:add(proto, bytes(0, there)), bytes, there)
        return "ECN Feedback"
    end
    local blocks = summary_blocks(bytes, there)
    if #blocks == 0 then
        return nil
    end
    local root = tree:add(proto, bytes(0, there))
    for _, block in ipairs(blocks) do
        show_summary(root, bytes, there, block)
    end
    return "ECN Summary"
end

function proto.dissector(_, pinfo, tree)
    for _, packet in ipairs({ rtcp_packets() }) do
        local shown = packet.range and show(tree, packet.range:tvb())
        if shown then
            pinfo.cols.info:append(" [" .. shown .. "]")
        end
    end
end

register_postdissector(proto)
