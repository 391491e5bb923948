// Compares the library for C with the second reader, for streams that libFuzzer makes:
//
//   - both accept the stream, or refuse it at the same message; layouts, nulls and values are equal
//   - whole, in pieces, and in pieces of the bytes that are wanted, the answers are the same
//   - batches that are written back have the same values, and if written again the same bytes
//   - with a refused growth of memory the answer is the same, or that memory ran out
//
// Blocks that are never freed and bytes outside of a block are found by the sanitizers. The program
// is linked with --wrap=malloc and --wrap=realloc.
#include "arrowstream.h"
#include "reader.h"

#include <algorithm>
#include <cstdio>
#include <cstdlib>
#include <cstring>

using second::Bytes, second::Column;

static void fail(const char *law, int line) {
    std::fprintf(stderr, "fuzz.cc:%d: not so: %s\n", line, law);
    std::abort();
}
#define LAW(holds) ((holds) ? (void)0 : fail(#holds, __LINE__))

// The growth that is refused, counted from 1; 0 refuses none.
static uint64_t refused_growth, growths;
// Whether each growth of each stream is refused in turn, or one of every second stream.
static const bool refuses_each = std::getenv("REFUSE_EACH") != nullptr;

extern "C" {
void *__real_malloc(size_t size);
void *__real_realloc(void *block, size_t size);
void *__wrap_malloc(size_t size) {
    return ++growths == refused_growth ? nullptr : __real_malloc(size);
}
void *__wrap_realloc(void *block, size_t size) {
    return ++growths == refused_growth ? nullptr : __real_realloc(block, size);
}
size_t LLVMFuzzerMutate(uint8_t *data, size_t size, size_t most);
}

// ---- what the library answers -----------------------------------------------------------------

struct Answer {
    uint32_t status = 0;
    bool is_marked = false;
    uint64_t taken = 0, messages = 0;
    std::string line, schema;
    std::vector<arrowstream_batch *> batches;

    Answer() = default;
    Answer(Answer &&) = default;
    ~Answer() {
        for (arrowstream_batch *batch : batches) arrowstream_batch_free(batch);
    }
    bool operator==(const Answer &other) const {
        return std::tie(status, is_marked, taken, messages, line, schema) ==
                   std::tie(other.status, other.is_marked, other.taken, other.messages, other.line,
                            other.schema) &&
               batches.size() == other.batches.size();
    }
};

// A text of the reader or the writer, or none.
template <typename Call, typename Handle> static std::string text_of(Call call, Handle *handle) {
    size_t wanted = 0, again = 0;
    if (call(handle, nullptr, 0, &wanted) != ARROWSTREAM_OK) return "";
    std::string text(wanted, '\0');
    if (call(handle, reinterpret_cast<uint8_t *>(&text[0]), wanted, &again) != ARROWSTREAM_OK)
        return "";
    LAW(again == wanted);
    return text;
}

enum : size_t { WHOLE = 0, AS_WANTED = SIZE_MAX };

// Feeds a piece, and keeps what the call reports and the batch that came.
static void feed(arrowstream_reader *reader, Bytes piece, arrowstream_progress &progress,
                 Answer &all) {
    size_t wanted = progress.wanted;
    std::vector<uint8_t> exact(piece.at, piece.at + piece.count);
    all.status = arrowstream_reader_feed(reader, exact.data(), exact.size(), &progress);
    bool is_event = progress.event != ARROWSTREAM_NOTHING;
    if (all.status != ARROWSTREAM_OK) {
        LAW(progress.taken == 0 && !is_event && progress.wanted == 0);
        return;
    }
    LAW(is_event ? progress.taken <= piece.count : progress.taken == piece.count);
    LAW(is_event || piece.count >= wanted || progress.wanted == wanted - piece.count);
    all.taken += progress.taken;
    all.is_marked = progress.event == ARROWSTREAM_END;
    LAW((progress.wanted == 0) == all.is_marked);
    if (progress.event == ARROWSTREAM_SCHEMA)
        all.schema = text_of(arrowstream_reader_schema, reader);
    if (progress.event == ARROWSTREAM_BATCH) {
        arrowstream_batch *batch = nullptr;
        all.status = arrowstream_reader_take(reader, &batch);
        LAW((all.status == ARROWSTREAM_OK) == (batch != nullptr));
        if (batch) all.batches.push_back(batch);
    }
}

static Answer answer(Bytes input, const arrowstream_limits &limits, size_t step) {
    Answer all;
    arrowstream_reader *reader = nullptr;
    arrowstream_reader_open(&limits, &reader);
    all.status = reader ? ARROWSTREAM_OK : ARROWSTREAM_OUT_OF_MEMORY;
    arrowstream_progress progress = {sizeof progress, 0, 4, 0, ARROWSTREAM_NOTHING};
    arrowstream_progress last = progress;
    while (all.status == ARROWSTREAM_OK && !all.is_marked && all.taken < input.count) {
        size_t left = input.count - all.taken;
        size_t size = step == WHOLE ? left : step == AS_WANTED ? progress.wanted : step;
        feed(reader, input.part(all.taken, std::min(left, size)), progress, all);
    }
    if (all.status == ARROWSTREAM_OK) all.status = arrowstream_reader_close(reader, &progress);
    all.messages = progress.messages;
    if (reader && all.status != ARROWSTREAM_OK) {
        all.line = text_of(arrowstream_reader_line, reader);
        all.taken = 0;
        if (!all.line.empty())
            LAW(arrowstream_reader_feed(reader, nullptr, 0, &last) == ARROWSTREAM_FAILED);
    }
    arrowstream_reader_free(reader);
    return all;
}

// ---- columns ----------------------------------------------------------------------------------

using Store = std::vector<std::vector<uint8_t>>;

// The column of a batch to which a path leads, as the second reader has it.
static bool find(const arrowstream_batch *batch, std::vector<uint64_t> path, Store &store,
                 Column &column) {
    static const int kinds[] = {second::Null,        second::Bool,   second::Int,
                                second::FixedBinary, second::Binary, second::Utf8,
                                second::List,        second::FixedList, second::Struct,
                                second::Int};  // by ARROWSTREAM_LAYOUT_NULL to _INDICES
    arrowstream_column facts = {};
    facts.size = sizeof facts;
    if (arrowstream_batch_column(batch, path.data(), path.size(), &facts) != ARROWSTREAM_OK)
        return false;
    const arrowstream_layout &layout = facts.layout;
    column.slots = facts.slots, column.nulls = facts.nulls;
    column.type.kind = kinds[layout.kind];
    column.type.is_signed = layout.is_signed;
    column.type.width = layout.bits ? layout.bits / 8 : layout.size;
    column.is_index = layout.kind == ARROWSTREAM_LAYOUT_INDICES;
    Bytes *buffers[] = {&column.validity, &column.offsets, &column.values};
    size_t sizes[] = {facts.validity, facts.offsets, facts.values};
    for (uint32_t buffer = 0; buffer < 3; buffer++) {
        std::vector<uint8_t> bytes(sizes[buffer]);
        size_t wanted = 0;
        uint32_t status = arrowstream_batch_buffer(batch, path.data(), path.size(), buffer,
                                                   bytes.data(), bytes.size(), &wanted);
        LAW(wanted == bytes.size() && (status == ARROWSTREAM_OK || wanted == 0));
        store.push_back(std::move(bytes));
        *buffers[buffer] = {store.back().data(), store.back().size()};
    }
    path.push_back(0);
    for (; path.back() < facts.children; path.back()++) {
        column.children.emplace_back();
        LAW(find(batch, path, store, column.children.back()));
    }
    Column none;
    LAW(!find(batch, path, store, none));
    path.back() = ARROWSTREAM_DICTIONARY;
    auto values = std::make_shared<Column>();
    if (find(batch, path, store, *values)) column.dictionary = values;
    return true;
}

static int shape(const Column &column) {
    int kind = column.type.kind;
    bool is_number = kind == second::Date || kind == second::Time || kind == second::Timestamp ||
                     kind == second::Duration;
    return is_number ? second::Int : kind;
}

static void compare_layouts(const Column &found, const Column &meant) {
    LAW(shape(found) == shape(meant) && found.is_index == meant.is_index);
    LAW(found.slots == meant.slots);
    LAW(shape(found) == second::Null || found.nulls == meant.nulls);
    bool has_width = meant.type.width > 0 && shape(meant) != second::Struct;
    LAW(!has_width || found.type.width == meant.type.width);
    LAW(shape(found) != second::Int || found.type.is_signed == meant.type.is_signed);
    LAW(found.children.size() == meant.children.size());
    for (size_t i = 0; i < meant.children.size(); i++)
        compare_layouts(found.children[i], meant.children[i]);
}

static bool are_equal(Bytes left, Bytes right) {
    return left.count == right.count && std::equal(left.at, left.at + left.count, right.at);
}

static bool bit(Bytes bytes, uint64_t i) { return bytes.at[i / 8] >> i % 8 & 1; }

// Moves from indices to the value of their dictionary. Returns whether the slot has a value.
static bool has_value(const Column *&column, uint64_t &slot) {
    for (; column->is_index && column->is_valid(slot); column = column->dictionary.get()) {
        slot = column->number(slot);
        LAW(column->dictionary && slot < column->dictionary->slots);
    }
    return column->is_valid(slot) && column->type.kind != second::Null;
}

// Compares the values of two slots, up to a number of slots in all.
static void compare_slots(const Column *left, uint64_t i, const Column *right, uint64_t j,
                          uint64_t &most) {
    if (most == 0) return;
    most--;
    bool is_there = has_value(left, i);
    LAW(is_there == has_value(right, j));
    if (!is_there) return;
    LAW(shape(*left) == shape(*right));
    uint64_t width = left->type.width, from = 0, to = 0, other = 0;
    switch (shape(*left)) {
    case second::Int: LAW(left->number(i) == right->number(j)); break;
    case second::Bool: LAW(bit(left->values, i) == bit(right->values, j)); break;
    case second::FixedBinary:
        LAW(are_equal(left->values.part(i * width, width), right->values.part(j * width, width)));
        break;
    case second::Binary: case second::Utf8: LAW(are_equal(left->item(i), right->item(j))); break;
    case second::Struct:
        for (size_t child = 0; child < left->children.size(); child++)
            compare_slots(&left->children[child], i, &right->children[child], j, most);
        break;
    case second::List:
        from = left->offset(i), to = left->offset(i + 1), other = right->offset(j);
        LAW(to - from == right->offset(j + 1) - other);
        break;
    case second::FixedList: from = i * width, to = from + width, other = j * width; break;
    }
    for (; from < to && most > 0; from++, other++)
        compare_slots(&left->children[0], from, &right->children[0], other, most);
}

enum : uint64_t { MOST_SLOTS = 20000 };

static void compare_batches(const second::Batch &left, const second::Batch &right) {
    LAW(left.rows == right.rows && left.columns.size() == right.columns.size());
    uint64_t most = MOST_SLOTS;
    for (size_t column = 0; column < left.columns.size(); column++)
        for (uint64_t row = 0; row < left.rows && most > 0; row++)
            compare_slots(&left.columns[column], row, &right.columns[column], row, most);
}

static second::Batch batch_of(const arrowstream_batch *batch, Store &store) {
    second::Batch found;
    found.rows = arrowstream_batch_rows(batch);
    found.columns.resize(arrowstream_batch_columns(batch));
    for (uint64_t i = 0; i < found.columns.size(); i++)
        LAW(find(batch, {i}, store, found.columns[i]));
    return found;
}

// ---- writing ----------------------------------------------------------------------------------

// The stream of batches that were read, and the numbers of those that it has. A batch whose values
// do not fit its schema is refused, as one with a null in a field that is not nullable.
static std::vector<uint8_t> written(const Answer &read, std::vector<size_t> &sent) {
    arrowstream_limits limits = {};
    limits.size = sizeof limits;
    arrowstream_limits_standard(&limits);
    arrowstream_writer *writer = nullptr;
    arrowstream_writer_open(&limits, &writer);
    auto text = reinterpret_cast<const uint8_t *>(read.schema.data());
    LAW(arrowstream_writer_schema(writer, text, read.schema.size()) == ARROWSTREAM_OK);
    for (size_t i = 0; i < read.batches.size(); i++) {
        uint32_t status = arrowstream_writer_columns(writer, read.batches[i]);
        LAW(status == ARROWSTREAM_OK || (status > 101 && status < 109));
        if (status == ARROWSTREAM_OK) sent.push_back(i);
    }
    LAW(arrowstream_writer_finish(writer) == ARROWSTREAM_OK);
    std::vector<uint8_t> bytes;
    while (size_t ready = arrowstream_writer_ready(writer)) {
        bytes.resize(bytes.size() + ready);
        LAW(arrowstream_writer_take(writer, bytes.data() + bytes.size() - ready, ready) == ready);
    }
    arrowstream_writer_free(writer);
    return bytes;
}

static void write_back(const Answer &read, const second::Stream &meant) {
    std::vector<size_t> sent, all;
    std::vector<uint8_t> bytes = written(read, sent);
    second::Stream stream = second::read({bytes.data(), bytes.size()}, second::Limits());
    LAW(stream.is_accepted && stream.is_marked && stream.taken == bytes.size());
    LAW(stream.batches.size() == sent.size());
    for (size_t i = 0; i < sent.size(); i++)
        compare_batches(stream.batches[i], meant.batches[sent[i]]);
    arrowstream_limits limits = {};
    limits.size = sizeof limits;
    arrowstream_limits_standard(&limits);
    Answer again = answer({bytes.data(), bytes.size()}, limits, WHOLE);
    LAW(again.status == ARROWSTREAM_OK && again.schema == read.schema);
    LAW(written(again, all) == bytes);
}

// ---- one input --------------------------------------------------------------------------------

static uint64_t hash_of(Bytes input) {
    uint64_t hash = 0xcbf29ce484222325;
    for (uint64_t i = 0; i < input.count; i++) hash = (hash ^ input.at[i]) * 0x100000001b3;
    return hash ^ hash >> 29;
}

// Limits that keep an input cheap, and for one input in 16 smaller ones.
static second::Limits limits_for(uint64_t hash) {
    second::Limits limits;
    limits.metadata = 1 << 16, limits.body = 1 << 20, limits.slots = 1 << 12;
    limits.fields = 256, limits.text = 1 << 13, limits.pairs = 512;
    if (hash % 16 == 0) {
        uint64_t some = hash >> 8;
        limits.metadata = some % 700, limits.body = some % 300, limits.slots = some % 16;
        limits.fields = some % 9, limits.depth = some % 5, limits.text = some % 60;
        limits.pairs = some % 4;
    }
    return limits;
}

extern "C" int LLVMFuzzerTestOneInput(const uint8_t *data, size_t size) {
    Bytes input = {data, size};
    uint64_t hash = hash_of(input);
    second::Limits least = limits_for(hash);
    arrowstream_limits limits = {sizeof limits, least.metadata, least.body, least.slots,
                                 least.fields,  least.depth,    least.text, least.pairs};
    second::Stream meant = second::read(input, least);
    Answer read = answer(input, limits, WHOLE);
    LAW((read.status == ARROWSTREAM_OK) == meant.is_accepted);
    LAW(read.batches.size() == meant.batches.size());
    if (meant.is_accepted) {
        LAW(read.is_marked == meant.is_marked && read.taken == meant.taken);
    } else {
        std::string end = " at message " + std::to_string(meant.messages);
        size_t at = read.line.size() - std::min(read.line.size(), end.size());
        LAW(read.line.substr(at) == end);
    }
    LAW(answer(input, limits, AS_WANTED) == read);
    LAW(answer(input, limits, 1 + hash % 64) == read);
    for (size_t i = 0; i < read.batches.size(); i++) {
        Store store;
        second::Batch found = batch_of(read.batches[i], store);
        compare_batches(found, meant.batches[i]);
        for (size_t column = 0; column < found.columns.size(); column++)
            compare_layouts(found.columns[column], meant.batches[i].columns[column]);
    }
    if (!read.batches.empty()) write_back(read, meant);
    auto is_refused = [&](uint64_t number) {
        growths = 0, refused_growth = number;
        Answer starved = answer(input, limits, 1 + hash % 64);
        refused_growth = 0;
        LAW(starved.status == read.status || starved.status == ARROWSTREAM_OUT_OF_MEMORY);
        return growths >= number;
    };
    if (refuses_each)
        for (uint64_t number = 1; is_refused(number);) number++;
    else if (hash >> 32 & 1)
        is_refused(1 + (hash >> 40) % 100);
    return 0;
}

// Half of the changes are of one number, at a multiple of its size: the length stays, so the bytes
// after it keep their meaning.
extern "C" size_t LLVMFuzzerCustomMutator(uint8_t *data, size_t size, size_t most, unsigned seed) {
    static const uint64_t some[] = {0, 1, 2, 3, 4, 8, 16, 64, 127, 128, 255, 256, 65535, 1 << 20,
                                    INT32_MAX, 1ull << 31, UINT32_MAX, INT64_MAX, UINT64_MAX};
    uint64_t random = seed * 0x9e3779b97f4a7c15;
    size_t width = 1u << (random >> 60 & 3);
    if ((random >> 59 & 1) || size < width) return LLVMFuzzerMutate(data, size, most);
    uint8_t *place = data + (random >> 8) % (size / width) * width;
    uint64_t number = 0;
    std::memcpy(&number, place, width);
    uint64_t choice = random >> 40 & 7;
    number = choice < 2 ? number ^ 1ull << (random >> 45) % (8 * width)
           : choice < 4 ? number + (random >> 45 & 15) - 8
                        : some[(random >> 45) % (sizeof some / sizeof *some)];
    std::memcpy(place, &number, width);
    return size;
}
