// Reads a stream from standard input, and checks the metadata of each message by the verifier that
// comes with FlatBuffers. Prints how many messages there are and the codes of the schema's types;
// the status is 1 at the first metadata that is refused.
#include <cstdint>
#include <cstdio>
#include <iostream>
#include <iterator>
#include <map>
#include <vector>

#include "message_generated.h"

namespace {

using Bytes = std::vector<char>;

int refused(const char* why, std::size_t message) {
  std::fprintf(stderr, "%s at message %zu\n", why, message);
  return 1;
}

std::uint32_t number_at(const Bytes& bytes, std::size_t place) {
  return flatbuffers::ReadScalar<std::uint32_t>(bytes.data() + place);
}

}  // namespace

int main() {
  const Bytes stream{std::istreambuf_iterator<char>(std::cin), std::istreambuf_iterator<char>()};
  std::map<int, int> types;
  std::size_t place = 0, messages = 0;
  for (; place < stream.size(); ++messages) {
    if (place + 8 > stream.size() || number_at(stream, place) != 0xffffffff) {
      return refused("no message begins", messages);
    }
    const std::size_t size = number_at(stream, place + 4);
    place += 8;
    if (size == 0) break;
    if (size > stream.size() - place) return refused("metadata is cut short", messages);
    // The verifier checks alignment too, so the metadata is copied to a multiple of 8 bytes.
    std::vector<std::uint64_t> words((size + 7) / 8);
    std::copy_n(stream.begin() + place, size, reinterpret_cast<char*>(words.data()));
    flatbuffers::Verifier verifier(reinterpret_cast<const std::uint8_t*>(words.data()), size, 128);
    if (!metadata::VerifyMessageBuffer(verifier)) {
      return refused("the verifier refuses the metadata", messages);
    }
    const metadata::Message* message = metadata::GetMessage(words.data());
    if (const metadata::Schema* schema = message->header_as_Schema()) {
      if (schema->fields() != nullptr) {
        for (const metadata::Field* field : *schema->fields()) ++types[field->type_type()];
      }
    } else if (const metadata::DictionaryBatch* values = message->header_as_DictionaryBatch()) {
      if (values->data() == nullptr) return refused("a dictionary has no data", messages);
    } else if (message->header_as_RecordBatch() == nullptr) {
      return refused("neither a schema nor a batch", messages);
    }
    place += size + message->body_length();
  }
  std::printf("%zu messages, types", messages);
  for (const auto& type : types) std::printf(" %d", type.first);
  std::printf("\n");
  return 0;
}
