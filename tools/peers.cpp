// peers TABLE MESSAGE JSON: times lumas_read on a tile beside readers of the same tile as JSON, in turns, in one run; each
// time is the best of many rounds. Without a schema a reader only says whether the text is JSON and what it holds; with one
// it also says that the id, the date's length and every sounding are as the tile's definition wants them.
#include <chrono>
#include <cstdint>
#include <cstdio>
#include <functional>
#include <string>
#include <vector>

#include "lumas.h"
#include "rapidjson/document.h"
#include "rapidjson/reader.h"
#include "rapidjson/schema.h"
#include "simdjson.h"

static const char schema_text[] = R"({"type": "object", "required": ["id", "surveyed", "d"], "properties": {
    "id": {"type": "integer", "minimum": 1, "maximum": 99999},
    "surveyed": {"type": "string", "minLength": 8, "maxLength": 8},
    "d": {"type": "array", "minItems": 1, "items": {"type": "integer", "minimum": 0, "maximum": 30000}}}})";

static std::string bytes_of(const char *path)
{
    std::string bytes;
    if (std::FILE *file = std::fopen(path, "rb")) {
        char part[4096];
        while (std::size_t count = std::fread(part, 1, sizeof part, file)) bytes.append(part, count);
        std::fclose(file);
    }
    return bytes;
}

static bool simdjson_checked(simdjson::ondemand::parser &parser, const simdjson::padded_string &text)
{
    simdjson::ondemand::document tile;
    int64_t number;
    std::string_view date;
    simdjson::ondemand::array soundings;
    if (parser.iterate(text).get(tile)) return false;
    if (tile["id"].get(number) || number < 1 || number > 99999) return false;
    if (tile["surveyed"].get(date) || date.size() != 8) return false;
    if (tile["d"].get(soundings)) return false;
    std::size_t count = 0;
    for (auto sounding : soundings) {
        if (sounding.get(number) || number < 0 || number > 30000) return false;
        count++;
    }
    return count > 0;
}

struct Reader {
    const char *name;
    std::function<bool()> read;
    double best;
};

static double seconds(const std::function<bool()> &read, int turns)
{
    auto start = std::chrono::steady_clock::now();
    for (int turn = 0; turn < turns; turn++)
        if (!read()) return -1;
    return std::chrono::duration<double>(std::chrono::steady_clock::now() - start).count();
}

int main(int count, char **word)
{
    if (count != 4) return 2;
    const std::string table = bytes_of(word[1]), message = bytes_of(word[2]), json = bytes_of(word[3]);
    std::vector<uint32_t> rows(LUMAS_ROW_WIDTH * (message.size() + 2));
    rapidjson::Document described;
    described.Parse(schema_text);
    const rapidjson::SchemaDocument schema(described);
    const simdjson::padded_string padded(json);
    simdjson::dom::parser dom;
    simdjson::ondemand::parser demand;
    std::vector<Reader> readers = {
        {"lumas_read", [&] {
            size_t value;
            return lumas_read((const uint8_t *)table.data(), table.size(), (const uint8_t *)message.data(), message.size(),
                              rows.data(), rows.size(), &value) == LUMAS_OK;
        }, 1e9},
        {"rapidjson, tree", [&] {
            rapidjson::Document tree;
            return !tree.Parse(json.data(), json.size()).HasParseError();
        }, 1e9},
        {"rapidjson, tree, schema", [&] {
            rapidjson::MemoryStream bytes(json.data(), json.size());
            rapidjson::SchemaValidatingReader<rapidjson::kParseDefaultFlags, rapidjson::MemoryStream, rapidjson::UTF8<>> reader(bytes, schema);
            rapidjson::Document tree;
            tree.Populate(reader);
            return bool(reader.GetParseResult());
        }, 1e9},
        {"simdjson, tree", [&] { return dom.parse(padded).error() == simdjson::SUCCESS; }, 1e9},
        {"simdjson, checked by hand", [&] { return simdjson_checked(demand, padded); }, 1e9},
    };
    const int turns = int(200000 / json.size()) + 1;
    for (int round = 0; round < 300; round++)
        for (Reader &reader : readers) {
            double took = seconds(reader.read, turns) / turns;
            if (took < 0) {
                std::printf("%s refuses the tile\n", reader.name);
                return 1;
            }
            if (took < reader.best) reader.best = took;
        }
    for (const Reader &reader : readers) {
        std::size_t bytes = &reader == &readers[0] ? message.size() : json.size();
        std::printf("%-26s %6zu bytes %9.0f ns %7.0f MB/s\n", reader.name, bytes, reader.best * 1e9, double(bytes) / reader.best / 1e6);
    }
    return 0;
}
