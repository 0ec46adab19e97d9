// Tests the layers for C++17 (c/send_queue.hpp, c/receiver.hpp): every method.
#include "receiver.hpp"
#include "send_queue.hpp"

#include <cstdio>
#include <string_view>

static unsigned long passed, failed;

static void check(bool ok, int line, const char *text)
{
    (ok ? passed : failed)++;
    if (!ok)
        std::fprintf(stderr, "c/test.cc:%d: failed: %s\n", line, text);
}

#define CHECK(condition) check(static_cast<bool>(condition), __LINE__, #condition)

static const std::vector<std::uint8_t> profile(3000, 7);

static dsq::SendQueue made(std::size_t store = 10000)
{
    dsq::Options options;
    options.store_length = store;
    options.default_threshold = 500;
    options.total_threshold = 0;
    auto queue = dsq::SendQueue::create(options);
    CHECK(queue);
    return std::move(*queue);
}

static dsq::Message message(std::uint16_t stream, std::size_t length)
{
    dsq::Message m;
    m.stream_id = stream;
    m.ppid = 53;
    m.payload = dsq::Bytes(profile.data(), length);
    return m;
}

static void creation()
{
    dsq::Options options;
    options.store_length = DSQ_MAX_STORE + 1;
    CHECK(dsq::SendQueue::create(options).refusal() == DSQ_STORE_WRONG);
    options.store_length = SIZE_MAX;
    CHECK(dsq::SendQueue::create(options).refusal() == DSQ_STORE_WRONG);
    options.store_length = 0;
    CHECK(dsq::SendQueue::create(options).refusal() == DSQ_STORE_WRONG);
    options.store_length = DSQ_MAX_STORE;
    options.payload_limit = 0;
    CHECK(dsq::SendQueue::create(options).refusal() == DSQ_PAYLOAD_LIMIT_WRONG);
    options.payload_limit = 1;
    CHECK(dsq::SendQueue::create(options));
    CHECK(dsq::name(DSQ_STORE_FULL) == std::string_view("DSQ_STORE_FULL"));
    CHECK(dsq::text(DSQ_STORE_FULL) == std::string_view("The payload is longer than the free bytes"));
    CHECK(::dsq_refusal_name(255) == std::string_view("not a refusal") && ::dsq_event_name(9) == std::string_view("not an event"));
    CHECK(::dsq_event_name(DSQ_EVENT_END) == std::string_view("DSQ_EVENT_END"));
}

static void sending()
{
    auto queue = made();
    std::array<std::uint8_t, 1200> buffer{};
    CHECK(queue.is_empty() && !queue.has_data_to_send() && queue.get_handover_readiness() == DSQ_READY);
    CHECK(!*queue.produce(1, buffer) && queue.event_count() == 0);
    dsq::Message m = message(1, 1300);
    m.lifetime = 5000000;
    m.max_retransmissions = 3;
    m.lifecycle_id = 9;
    CHECK(queue.waiting_messages() == 0 && queue.known_streams() == 0);
    const auto before = queue.free_bytes();
    CHECK(queue.add(1, m));
    CHECK(queue.free_bytes() == before - 1300 && queue.waiting_messages() == 1 && queue.known_streams() == 1);
    CHECK(queue.total_buffered_amount() == 1300 && queue.buffered_amount(1) == 1300 && queue.get_handover_readiness() == 2);
    auto first = queue.produce(2, buffer);
    CHECK(first && *first && (*first)->payload.size() == 1200 && (*first)->first && !(*first)->last && (*first)->lifecycle_id == 0);
    CHECK((*first)->stream_id == 1 && (*first)->ppid == 53 && (*first)->max_retransmissions == 3 && (*first)->expires_at == 6000001);
    CHECK((*first)->payload[1199] == 7 && queue.event_count() == 1 && queue.event(0).kind == DSQ_EVENT_STREAM_LOW);
    CHECK(queue.event(0).number == 1 && queue.event(0).amount == 100);
    auto last = queue.produce(2, buffer);
    CHECK(last && (*last)->last && (*last)->fsn == 1 && (*last)->lifecycle_id == 9 && queue.event_count() == 1);
    CHECK(queue.produce(2, dsq::Buffer()).refusal() == DSQ_SIZE_WRONG && queue.event_count() == 0);
    CHECK(queue.add(1, message(1, 0)).refusal == DSQ_PAYLOAD_WRONG);
    CHECK(queue.add(1, dsq::Message()).refusal == DSQ_PAYLOAD_WRONG);
    CHECK(queue.add(DSQ_MAX_TIME + 1, message(1, 1)).refusal == DSQ_TIME_LATE);
    CHECK(queue.add(1, message(1, 10)) && queue.add(1, message(2, 10)));
    queue.discard(1, 1);
    CHECK(queue.buffered_amount(1) == 0 && queue.event_count() == 0);
    auto packet = queue.fill_packet(1, buffer, 1200, 1, 2, 3, 4);
    CHECK(packet && *packet && (*packet)->chunks == 1 && (*packet)->bytes == 12 + 16 + 12);
    CHECK(!*queue.fill_packet(1, buffer, 1200, 1, 2, 3, 4));
    CHECK(queue.fill_packet(1, buffer, 1201, 1, 2, 3, 4).refusal() == DSQ_PACKET_BUFFER_SHORT);
}

static void streams()
{
    auto queue = made();
    CHECK(queue.set_priority(1, 4) && queue.get_priority(1) == 4 && queue.get_priority(2) == 256);
    CHECK(queue.add(1, message(1, 600)) && queue.add(1, message(2, 600)));
    CHECK(queue.set_buffered_amount_low_threshold(1, 600) && queue.event_count() == 1 && queue.buffered_amount_low_threshold(1) == 600);
    CHECK(queue.prepare_reset_stream(1) && queue.buffered_amount(1) == 0);
    CHECK(queue.has_streams_ready_to_be_reset() && queue.count_streams_ready_to_reset() == 1);
    CHECK(queue.get_streams_ready_to_reset() == std::vector<std::uint16_t>{1} && !queue.has_streams_ready_to_be_reset());
    queue.commit_reset_streams();
    queue.rollback_reset_streams();
    queue.enable_message_interleaving(true);
    std::array<std::uint8_t, 100> buffer{};
    CHECK(queue.produce(1, buffer));
    queue.reset();
    CHECK(queue.buffered_amount(2) == 600 && queue.has_data_to_send());
}

static void changeover()
{
    auto queue = made();
    std::array<std::uint8_t, 100> buffer{};
    CHECK(queue.add(1, message(1, 300)) && queue.produce(1, buffer));
    auto image = queue.save(1);
    CHECK(image && queue.save(DSQ_MAX_TIME + 1).refusal() == DSQ_TIME_LATE);
    auto other = made();
    CHECK(other.restore(1, *image) && *other.save(1) == *image);
    CHECK(other.restore(1, *image).refusal == DSQ_QUEUE_USED && made().restore(1, dsq::Bytes()).refusal == DSQ_IMAGE_WRONG);
    CHECK(made(100).restore(1, *image).refusal == DSQ_IMAGE_LARGE);
    auto copy = other.clone();
    dsq::SendQueue moved = std::move(other);
    CHECK((*copy.produce(1, buffer))->fsn == 1 && (*moved.produce(1, buffer))->fsn == 1 && *copy.save(1) == *moved.save(1));
    copy = made();
    CHECK(copy.is_empty() && moved.total_buffered_amount() == 100);
}

static void planning()
{
    const std::vector<std::uint16_t> ids = {3, 1, 2};
    const std::vector<std::uint64_t> sizes = {900, 900, 900};
    auto priorities = dsq::plan_priorities(ids, sizes, 1200);
    CHECK(priorities && priorities->size() == 3 && (*priorities)[1] >= 1);
    CHECK(dsq::plan_priorities(ids, sizes, 0).refusal() == DSQ_PAYLOAD_LIMIT_WRONG);
    CHECK(dsq::plan_priorities({}, {}, 1200).refusal() == DSQ_ORDER_WRONG);
    auto queue = made();
    queue.enable_message_interleaving(true);
    std::array<std::uint8_t, 1200> buffer{};
    for (std::size_t k = 0; k < ids.size(); k++)
        CHECK(queue.set_priority(ids[k], (*priorities)[k]));
    for (std::uint16_t stream = 1; stream <= 3; stream++)
        CHECK(queue.add(1, message(stream, 900)));
    for (const std::uint16_t stream : ids)
        CHECK((*queue.produce(1, buffer))->stream_id == stream);
}

static void resets()
{
    auto queue = made();
    dsq::StreamResetHandler handler(70);
    std::array<std::uint8_t, DSQ_MAX_RESET_REQUEST> request{};
    CHECK(!handler.is_underway() && *queue.make_reset_request(handler, request, 1, 2) == 0);
    CHECK(queue.prepare_reset_stream(5) && queue.make_reset_request(handler, dsq::Buffer(), 1, 2).refusal() == DSQ_REQUEST_OUTPUT_SHORT);
    CHECK(*queue.make_reset_request(handler, request, 1, 2) == 24 && request[7] == 18 && request[11] == 70 && handler.is_underway());
    CHECK(queue.make_reset_request(handler, request, 1, 2).refusal() == DSQ_REQUEST_UNDERWAY);
    std::array<std::uint8_t, 16> response = {130, 0, 0, 16, 0, 16, 0, 12, 0, 0, 0, 70, 0, 0, 0, 6};
    CHECK(*queue.handle_reset_response(handler, response) == DSQ_RESPONSE_WAITING && handler.is_underway());
    CHECK(queue.handle_reset_response(handler, dsq::Bytes(response.data(), 15)).refusal() == DSQ_RESPONSE_WRONG);
    response[15] = 1;
    CHECK(*queue.handle_reset_response(handler, response) == DSQ_RESPONSE_COMMITTED && !handler.is_underway());
    CHECK(*queue.handle_reset_response(handler, response) == DSQ_RESPONSE_IGNORED);
    CHECK(queue.prepare_reset_stream(6) && *queue.make_reset_request(handler, request, 1, 2) > 0 && request[11] == 71);
    queue.reset_through(handler);
    CHECK(!handler.is_underway() && !queue.has_streams_ready_to_be_reset());
}

// A message in chunks, the last one first, each twice.
static void receiving()
{
    dsr::Options options;
    options.store_length = 0;
    CHECK(dsr::Receiver::create(options).refusal() == DSR_STORE_WRONG);
    options.store_length = SIZE_MAX;
    CHECK(dsr::Receiver::create(options).refusal() == DSR_STORE_WRONG);
    options.store_length = 2000;
    options.starting_tsn = 0xffffffff;
    auto receiver = dsr::Receiver::create(options);
    CHECK(receiver && dsr::name(DSR_TSN_FAR) == std::string_view("DSR_TSN_FAR"));
    auto queue = made();
    CHECK(queue.add(1, message(9, 1500)));
    std::vector<std::vector<std::uint8_t>> chunks;
    std::array<std::uint8_t, 700> buffer{};
    while (auto fragment = *queue.produce(1, buffer)) {
        std::vector<std::uint8_t> chunk(DSQ_MAX_CHUNK(buffer.size()));
        const auto tsn = static_cast<std::uint32_t>(options.starting_tsn + chunks.size());
        auto written = dsq::write_chunk(chunk, DSQ_CHUNK_DATA, tsn, *fragment, fragment->payload);
        CHECK(written && *written == 16 + (fragment->payload.size() + 3) / 4 * 4);
        CHECK(dsq::write_chunk(dsq::Buffer(), DSQ_CHUNK_DATA, tsn, *fragment, fragment->payload).refusal() == DSQ_CHUNK_OUTPUT_SHORT);
        chunk.resize(*written);
        auto read = dsq::read_chunk(chunk);
        CHECK(read && read->kind == DSQ_CHUNK_DATA && read->tsn == tsn && read->stream_id == 9 && read->first == fragment->first);
        CHECK(read->payload.size() == fragment->payload.size() && read->payload[0] == 7 && read->payload.data() == chunk.data() + 16);
        chunks.push_back(chunk);
    }
    CHECK(chunks.size() == 3 && dsq::read_chunk(dsq::Bytes()).refusal() == DSQ_CHUNK_WRONG);
    std::array<std::uint8_t, 1500> whole{};
    for (std::size_t k = chunks.size(); k-- > 0;) {
        CHECK(!*receiver->fetch(whole));
        CHECK(*receiver->receive(chunks[k]) == dsr::Received::accepted && *receiver->receive(chunks[k]) == dsr::Received::repeat);
    }
    CHECK(receiver->receive(dsr::Bytes()).refusal() == DSR_CHUNK_WRONG);
    CHECK(receiver->fetch(dsr::Buffer()).refusal() == DSR_BUFFER_SHORT);
    auto copy = receiver->clone();
    auto got = receiver->fetch(whole);
    CHECK(got && *got && (*got)->stream_id == 9 && (*got)->ppid == 53 && !(*got)->unordered && (*got)->payload.size() == 1500);
    CHECK((*got)->payload[1499] == 7 && !*receiver->fetch(whole));
    dsr::Receiver moved = std::move(copy);
    CHECK(*moved.fetch(whole));
}

int main()
{
    static_assert(!std::is_copy_constructible_v<dsq::SendQueue> && std::is_nothrow_move_constructible_v<dsq::SendQueue>);
    static_assert(!std::is_copy_constructible_v<dsr::Receiver> && std::is_nothrow_move_constructible_v<dsr::Receiver>);
    creation();
    sending();
    streams();
    changeover();
    planning();
    resets();
    receiving();
    std::printf("c++: %lu checks passed\n", passed);
    return failed != 0;
}
