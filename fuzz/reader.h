// A second reader of Arrow IPC streams, written from the standard alone: it shares no code with the
// library. It takes a whole stream, and says whether it is accepted and what its batches are.
//
// Only whether a message is refused is decided here, and not for which of its causes.
#pragma once
#include <cstdint>
#include <cstring>
#include <map>
#include <memory>
#include <string>
#include <tuple>
#include <vector>

namespace second {

struct Limits {
    uint64_t metadata = 1 << 24, body = 1ull << 40, slots = (1ull << 31) - 1, fields = 65536;
    uint64_t depth = 64, text = 1 << 26, pairs = 1 << 20;
};

struct Refused {};

inline void require(bool holds) {
    if (!holds) throw Refused{};
}

struct Bytes {
    const uint8_t *at = nullptr;
    uint64_t count = 0;

    template <typename T> T number(uint64_t place) const {
        require(place <= count && sizeof(T) <= count - place);
        T value;
        std::memcpy(&value, at + place, sizeof(T));
        return value;
    }
    Bytes part(uint64_t place, uint64_t size) const {
        require(place <= count && size <= count - place);
        return {at + place, size};
    }
};

inline bool is_utf8(Bytes text) {
    for (uint64_t i = 0; i < text.count;) {
        uint8_t first = text.at[i++];
        if (first < 0x80) continue;
        int more = first >= 0xf0 ? 3 : first >= 0xe0 ? 2 : 1;
        if (first < 0xc2 || first > 0xf4 || text.count - i < uint64_t(more)) return false;
        uint8_t low = first == 0xe0 ? 0xa0 : first == 0xf0 ? 0x90 : 0x80;
        uint8_t high = first == 0xed ? 0x9f : first == 0xf4 ? 0x8f : 0xbf;
        for (; more > 0; more--, low = 0x80, high = 0xbf) {
            uint8_t next = text.at[i++];
            if (next < low || next > high) return false;
        }
    }
    return true;
}

// ---- FlatBuffers ------------------------------------------------------------------------------

struct Table {
    Bytes all;
    uint64_t at, vtable, fields_end;

    Table(Bytes all, uint64_t at) : all(all), at(at) {
        int64_t place = int64_t(at) - all.number<int32_t>(at);
        require(place >= 0);
        vtable = place;
        uint16_t size = all.number<uint16_t>(vtable);
        require(size >= 4 && size % 2 == 0);
        all.part(vtable, size);
        fields_end = vtable + size;
    }
    // The place of a field of this size, or 0 if it is absent.
    uint64_t place(int field, uint64_t size) const {
        uint64_t entry = vtable + 4 + 2 * field;
        uint16_t distance = entry + 2 <= fields_end ? all.number<uint16_t>(entry) : 0;
        if (distance == 0) return 0;
        all.part(at + distance, size);
        return at + distance;
    }
    template <typename T> T get(int field, T absent) const {
        uint64_t found = place(field, sizeof(T));
        return found ? all.number<T>(found) : absent;
    }
    static uint64_t target(Bytes all, uint64_t place) {
        uint32_t distance = all.number<uint32_t>(place);
        require(distance != 0);
        return place + distance;
    }
    std::unique_ptr<Table> table(int field) const {
        uint64_t found = place(field, 4);
        return found ? std::make_unique<Table>(all, target(all, found)) : nullptr;
    }
    // The elements of a vector: their bytes, and their number.
    std::pair<Bytes, uint64_t> vector(int field, uint64_t size) const {
        uint64_t found = place(field, 4);
        if (!found) return {};
        uint64_t start = target(all, found), count = all.number<uint32_t>(start);
        return {all.part(start + 4, count * size), count};
    }
    std::vector<Table> tables(int field, uint64_t most) const {
        auto [bytes, count] = vector(field, 4);
        require(count <= most);
        std::vector<Table> found;
        for (uint64_t i = 0; i < count; i++)
            found.emplace_back(all, target(all, bytes.at - all.at + 4 * i));
        return found;
    }
    Bytes text(int field) const {
        Bytes bytes = vector(field, 1).first;
        require(is_utf8(bytes));
        return bytes;
    }
};

// ---- schema -----------------------------------------------------------------------------------

// The codes of Schema.fbs, union Type.
enum Kind {
    Null = 1, Int = 2, Binary = 4, Utf8 = 5, Bool = 6, Date = 8, Time = 9, Timestamp = 10,
    List = 12, Struct = 13, FixedBinary = 15, FixedList = 16, Duration = 18
};

struct Type {
    int kind = Null, unit = 0;
    bool is_signed = true, has_zone = false;
    uint64_t width = 0;  // bytes of a number or of fixed-size bytes, or slots of a fixed-size list
    std::string zone;

    bool operator==(const Type &other) const {
        auto all = [](const Type &t) {
            return std::tie(t.kind, t.unit, t.is_signed, t.has_zone, t.width, t.zone);
        };
        return all(*this) == all(other);
    }
};

struct Field {
    Type type;
    std::vector<Field> children;
    bool is_nullable = false, is_dictionary = false, is_ordered = false;
    int64_t id = 0;
    Type index;
};

struct Head {
    int64_t length = 0;
    std::pair<Bytes, uint64_t> nodes, buffers;
};

struct Message {
    int kind = 0;  // 1 a schema, 2 a dictionary, 3 a record batch
    uint64_t body = 0;
    std::vector<Field> fields;
    int64_t id = 0;
    Head head;
};

class Metadata {
  public:
    explicit Metadata(const Limits &limits) : limits(limits) {}

    Message message(Bytes metadata) {
        Table table(metadata, Table::target(metadata, 0));
        require(table.get<int16_t>(0, 0) == 4);
        Message message;
        message.kind = table.get<uint8_t>(1, 0);
        require(message.kind >= 1 && message.kind <= 3);
        auto header = table.table(2);
        require(header != nullptr);
        int64_t body = table.get<int64_t>(3, 0);
        require(body >= 0 && uint64_t(body) <= limits.body);
        message.body = body;
        if (message.kind == 1) message.fields = schema(*header);
        if (message.kind == 2) {
            message.id = header->get<int64_t>(0, 0);
            auto data = header->table(1);
            require(data != nullptr && header->get<uint8_t>(2, 0) == 0);
            message.head = head(*data);
        }
        if (message.kind == 3) {
            message.head = head(*header);
            pairs(table, 4);
        }
        return message;
    }

  private:
    const Limits &limits;
    uint64_t fields = 0, texts = 0, pairs_so_far = 0;
    std::map<int64_t, Type> dictionaries;

    Bytes counted(Bytes text) {
        texts += text.count;
        require(texts <= limits.text);
        return text;
    }
    void pairs(const Table &table, int field) {
        for (const Table &pair : table.tables(field, limits.pairs - pairs_so_far)) {
            pairs_so_far++;
            counted(pair.text(0));
            counted(pair.text(1));
        }
    }
    Head head(const Table &batch) {
        require(batch.table(3) == nullptr);
        return {batch.get<int64_t>(0, 0), batch.vector(1, 16), batch.vector(2, 16)};
    }
    std::vector<Field> schema(const Table &table) {
        require(table.get<int16_t>(0, 0) == 0);
        pairs(table, 2);
        return all_fields(table, 1, 1);
    }
    std::vector<Field> all_fields(const Table &table, int at, uint64_t depth) {
        std::vector<Field> found;
        for (const Table &child : table.tables(at, limits.fields - fields))
            found.push_back(field(child, depth));
        return found;
    }
    static Type number(int64_t bits, bool is_signed) {
        require(bits == 8 || bits == 16 || bits == 32 || bits == 64);
        Type type;
        type.kind = Int, type.is_signed = is_signed, type.width = bits / 8;
        return type;
    }
    Type type_of(int code, const Table &table) {
        Type type;
        type.kind = code;
        switch (code) {
        case Null: case Binary: case Utf8: case Bool: case List: case Struct: break;
        case Int: type = number(table.get<int32_t>(0, 0), table.get<uint8_t>(1, 0)); break;
        case Date:
            type.unit = table.get<int16_t>(0, 1), type.width = type.unit == 0 ? 4 : 8;
            require(type.unit == 0 || type.unit == 1);
            break;
        case Time: case Timestamp: case Duration:
            type.unit = table.get<int16_t>(0, code != Timestamp), type.width = 8;
            require(type.unit >= 0 && type.unit <= 3);
            if (code == Time) {
                type.width = type.unit < 2 ? 4 : 8;
                require(table.get<int32_t>(1, 32) == int64_t(8 * type.width));
            }
            if (code == Timestamp && (type.has_zone = table.place(1, 4) != 0)) {
                Bytes zone = counted(table.text(1));
                type.zone.assign(zone.at, zone.at + zone.count);
            }
            break;
        case FixedBinary: case FixedList: {
            int32_t size = table.get<int32_t>(0, 0);
            require(size >= 0);
            type.width = size;
            break;
        }
        default: throw Refused{};
        }
        return type;
    }
    Field field(const Table &table, uint64_t depth) {
        require(++fields <= limits.fields && depth <= limits.depth);
        counted(table.text(0));
        Field field;
        field.is_nullable = table.get<uint8_t>(1, 0);
        auto type = table.table(3);
        require(type != nullptr);
        field.type = type_of(table.get<uint8_t>(2, 0), *type);
        pairs(table, 6);
        field.children = all_fields(table, 5, depth + 1);
        size_t count = field.children.size();
        int kind = field.type.kind;
        require(kind == Struct || count == (kind == List || kind == FixedList));
        if (auto encoding = table.table(4)) {
            require(kind != List && kind != FixedList && kind != Struct);
            field.is_dictionary = true;
            field.id = encoding->get<int64_t>(0, 0);
            field.is_ordered = encoding->get<uint8_t>(2, 0);
            auto index = encoding->table(1);
            field.index = index ? number(index->get<int32_t>(0, 0), index->get<uint8_t>(1, 0))
                                : number(32, true);
            require(dictionaries.emplace(field.id, field.type).first->second == field.type);
        }
        return field;
    }
};

// ---- columns ----------------------------------------------------------------------------------

struct Column {
    Type type;
    uint64_t slots = 0, nulls = 0;
    Bytes validity, offsets, values;
    std::vector<Column> children;
    bool is_index = false;
    std::shared_ptr<const Column> dictionary;  // the values of indices, if there are any

    bool is_valid(uint64_t slot) const {
        return validity.count == 0 || (validity.at[slot / 8] >> slot % 8 & 1);
    }
    uint64_t offset(uint64_t slot) const { return offsets.number<uint32_t>(4 * slot); }
    uint64_t number(uint64_t slot) const {
        uint64_t value = 0, bits = 64 - 8 * type.width;
        std::memcpy(&value, values.at + type.width * slot, type.width);
        return type.is_signed ? uint64_t(int64_t(value << bits) >> bits) : value;
    }
    Bytes item(uint64_t slot) const {
        return values.part(offset(slot), offset(slot + 1) - offset(slot));
    }
};

using Dictionaries = std::map<int64_t, std::shared_ptr<const Column>>;

class Body {
  public:
    Body(const Limits &limits, const Head &head, Bytes body, const Dictionaries &dictionaries)
        : limits(limits), head(head), body(body), dictionaries(dictionaries) {}

    std::vector<Column> columns(const std::vector<Field> &fields) {
        require(head.length >= 0 && uint64_t(head.length) <= limits.slots);
        std::vector<Column> columns;
        for (const Field &field : fields) {
            columns.push_back(column(field));
            require(columns.back().slots == uint64_t(head.length));
        }
        require(nodes == head.nodes.second && buffers == head.buffers.second);
        for (const Column &column : columns) {
            uint64_t end = needs_visit(column) ? column.slots : 0;
            for (uint64_t slot = 0; slot < end; slot++) visit(column, slot);
        }
        return columns;
    }

  private:
    const Limits &limits;
    const Head &head;
    Bytes body;
    const Dictionaries &dictionaries;
    uint64_t nodes = 0, buffers = 0;

    std::pair<int64_t, int64_t> next(const std::pair<Bytes, uint64_t> &list, uint64_t &used) {
        require(used < list.second);
        uint64_t at = 16 * used++;
        return {list.first.number<int64_t>(at), list.first.number<int64_t>(at + 8)};
    }
    Bytes buffer(uint64_t needed) {
        auto [at, size] = next(head.buffers, buffers);
        require(at >= 0 && size >= 0 && uint64_t(size) >= needed);
        return size == 0 ? Bytes{} : body.part(at, size);
    }
    void take_validity(Column &column) {
        column.validity = buffer(0);
        uint64_t clear = 0;
        if (column.validity.count > 0) {
            require(column.validity.count >= (column.slots + 7) / 8);
            for (uint64_t slot = 0; slot < column.slots; slot++) clear += !column.is_valid(slot);
        }
        require(clear == column.nulls);
    }
    void take_offsets(Column &column) {
        column.offsets = buffer(column.slots == 0 ? 0 : 4 * (column.slots + 1));
        for (uint64_t slot = 0, last = 0; column.slots > 0 && slot <= column.slots; slot++) {
            require(column.offset(slot) <= INT32_MAX && column.offset(slot) >= last);
            last = column.offset(slot);
        }
    }
    uint64_t last_offset(const Column &column) {
        return column.slots == 0 ? 0 : column.offset(column.slots);
    }
    Column column(const Field &field) {
        Column column;
        auto [slots, nulls] = next(head.nodes, nodes);
        require(slots >= 0 && uint64_t(slots) <= limits.slots && nulls >= 0 && nulls <= slots);
        column.slots = slots, column.nulls = nulls;
        column.is_index = field.is_dictionary;
        column.type = field.is_dictionary ? field.index : field.type;
        int kind = column.type.kind;
        if (kind == Null) return column;
        take_validity(column);
        if (kind == Binary || kind == Utf8 || kind == List) take_offsets(column);
        if (kind == Binary || kind == Utf8) column.values = buffer(last_offset(column));
        else if (kind == Bool) column.values = buffer((column.slots + 7) / 8);
        else if (kind != List && kind != FixedList && kind != Struct)
            column.values = buffer(column.slots * column.type.width);
        for (const Field &child : field.children) column.children.push_back(this->column(child));
        uint64_t needed = kind == List ? last_offset(column)
                        : kind == FixedList ? column.slots * column.type.width : column.slots;
        for (const Column &child : column.children) require(child.slots >= needed);
        if (field.is_dictionary) {
            auto found = dictionaries.find(field.id);
            if (found != dictionaries.end()) column.dictionary = found->second;
        }
        return column;
    }
    static bool needs_visit(const Column &column) {
        bool needs = column.is_index || column.type.kind == Utf8;
        for (const Column &child : column.children) needs |= needs_visit(child);
        return needs;
    }
    // Each slot that a row shows has a text in UTF-8, or the index of a value.
    static void visit(const Column &column, uint64_t slot) {
        if (!column.is_valid(slot)) return;
        int kind = column.type.kind;
        if (column.is_index)
            require(column.dictionary && column.number(slot) < column.dictionary->slots);
        else if (kind == Utf8) require(is_utf8(column.item(slot)));
        else if (kind == Struct)
            for (const Column &child : column.children) visit(child, slot);
        else if (kind == List || kind == FixedList) {
            uint64_t width = column.type.width;
            uint64_t from = kind == List ? column.offset(slot) : slot * width;
            uint64_t to = kind == List ? column.offset(slot + 1) : from + width;
            for (; from < to && needs_visit(column.children[0]); from++)
                visit(column.children[0], from);
        }
    }
};

// ---- streams ----------------------------------------------------------------------------------

struct Batch {
    uint64_t rows = 0;
    std::vector<Column> columns;
};

struct Stream {
    bool is_accepted = false, is_marked = false;
    uint64_t taken = 0, messages = 0;
    std::vector<Batch> batches;
};

// Reads a stream. The batches point into its bytes. `messages` counts those before a refused one.
inline Stream read(Bytes input, const Limits &limits) {
    Stream stream;
    std::vector<Field> schema;
    std::map<int64_t, Field> values;
    Dictionaries dictionaries;
    auto note = [&](auto &&self, const std::vector<Field> &fields) -> void {
        for (Field field : fields) {
            self(self, field.children);
            bool is_dictionary = field.is_dictionary;
            field.is_dictionary = false;
            if (is_dictionary) values.emplace(field.id, field);
        }
    };
    try {
        while (stream.messages == 0 || stream.taken < input.count) {
            uint64_t at = stream.taken;
            require(input.number<uint32_t>(at) == UINT32_MAX);
            int32_t size = input.number<int32_t>(at + 4);
            require(size >= 0 && uint64_t(size) <= limits.metadata);
            if (size == 0) {
                require(stream.messages > 0);
                stream.is_marked = true;
                stream.taken = at + 8;
                break;
            }
            Message message = Metadata(limits).message(input.part(at + 8, size));
            require((message.kind == 1) == (stream.messages == 0));
            Bytes body = input.part(at + 8 + size, message.body);
            if (message.kind == 1) {
                schema = message.fields;
                note(note, schema);
            } else if (message.kind == 2) {
                auto found = values.find(message.id);
                require(found != values.end());
                Body reader(limits, message.head, body, dictionaries);
                std::vector<Column> columns = reader.columns({found->second});
                dictionaries[message.id] = std::make_shared<Column>(columns[0]);
            } else {
                Body reader(limits, message.head, body, dictionaries);
                stream.batches.push_back({uint64_t(message.head.length), reader.columns(schema)});
            }
            stream.messages++;
            stream.taken = at + 8 + size + message.body;
        }
        stream.is_accepted = true;
    } catch (Refused) {
    }
    return stream;
}

}  // namespace second
