// The send queue for a host in C++17: dsq::SendQueue owns the arrays that the proved functions of send_queue.h are lent, and shows the calls
// with spans and structs. A thin layer: nothing of it is proved or in the library. It throws nothing of its own; a call that can be refused
// answers a Result, which must be looked at. What a call means, and what a host must keep, stands in send_queue.h.
#ifndef DSQ_SEND_QUEUE_HPP
#define DSQ_SEND_QUEUE_HPP

#include "desqariy_host.hpp"
#include "send_queue.h"
#include "send_queue_names.h"
#include "send_queue_structs.h"

#include <array>
#include <memory>
#include <vector>

namespace dsq {

using desqariy::Buffer;
using desqariy::Bytes;
using desqariy::Span;
using Refusal = ::dsq_refusal;
using Fragment = ::dsq_fragment;
using Event = ::dsq_event_told;
using Done = desqariy::Done<Refusal>;
template <class T>
using Result = desqariy::Result<T, Refusal>;

inline const char *name(Refusal refusal) { return ::dsq_refusal_name(static_cast<unsigned>(refusal)); }
inline const char *text(Refusal refusal) { return ::dsq_refusal_text(static_cast<unsigned>(refusal)); }

struct Options {
    std::size_t store_length = DSQ_MAX_STORE;
    std::uint64_t payload_limit = 1200;
    std::uint16_t default_priority = 256;
    std::uint64_t default_threshold = 0;
    std::uint64_t total_threshold = 1800000;
    bool handover_with_data = false;
    ::dsq_restart restart_rule = DSQ_RESTART_DCSCTP;
};

// A message; what is left out is not given.
struct Message {
    std::uint16_t stream_id = 0;
    std::uint32_t ppid = 0;
    Bytes payload = {};
    bool unordered = false;
    std::optional<std::uint64_t> lifetime = {};
    std::optional<std::uint16_t> max_retransmissions = {};
    std::uint64_t lifecycle_id = 0;
};

// A fragment with its bytes, at the start of the buffer that was lent.
struct Sent : Fragment {
    Bytes payload;
};

struct Filled {
    std::size_t bytes;
    std::size_t chunks;
};

// A fragment read from the wire, with its bytes among those that were read.
struct Chunk : Fragment {
    ::dsq_chunk_kind kind;
    std::uint32_t tsn;
    Bytes payload;
};

// Writes a fragment as a chunk, and tells its bytes. Refusals: 17, 18.
inline Result<std::size_t> write_chunk(Buffer output, ::dsq_chunk_kind kind, std::uint32_t tsn, const Fragment &f, Bytes payload)
{
    std::array<std::uint64_t, DSQ_OUT_WORDS> told{};
    const std::uint32_t number =
        ::dsq_write_chunk(output.data(), output.size(), payload.data(), payload.size(), told.data(), static_cast<std::uint8_t>(kind), tsn,
                          f.stream_id, f.unordered, f.ssn, f.mid, f.fsn, f.ppid, f.first, f.last);
    if (number != DSQ_ACCEPTED)
        return static_cast<Refusal>(number);
    return static_cast<std::size_t>(told[DSQ_OUT_VALUE]);
}

// The chunk that the bytes are. Refusals: 19.
inline Result<Chunk> read_chunk(Bytes bytes)
{
    std::array<std::uint64_t, DSQ_OUT_WORDS> told{};
    std::array<std::uint64_t, DSQ_CHUNK_WORDS> chunk{};
    const std::uint32_t number = ::dsq_read_chunk(bytes.data(), bytes.size(), told.data(), chunk.data());
    if (number != DSQ_ACCEPTED)
        return static_cast<Refusal>(number);
    const Fragment f = ::dsq_fragment_of(told.data());
    return Chunk{f, static_cast<::dsq_chunk_kind>(chunk[DSQ_CHUNK_KIND]), static_cast<std::uint32_t>(chunk[DSQ_CHUNK_TSN]),
                 Bytes(bytes.data() + chunk[DSQ_CHUNK_PAYLOAD_AT], f.length)};
}

// A priority for each id, for first fragments in the order of ids. Refusals: 1, 28, 29.
inline Result<std::vector<std::uint16_t>> plan_priorities(Span<const std::uint16_t> ids, Span<const std::uint64_t> sizes,
                                                          std::uint64_t payload_limit)
{
    std::vector<std::uint16_t> priorities(DSQ_MAX_PLANNED);
    const std::uint32_t number =
        ::dsq_plan_priorities(ids.data(), ids.size(), sizes.data(), sizes.size(), priorities.data(), payload_limit);
    if (number != DSQ_ACCEPTED)
        return static_cast<Refusal>(number);
    priorities.resize(ids.size());
    return priorities;
}

// A stream reset handler: it goes with one queue, from whose methods below it is called.
class StreamResetHandler {
  public:
    explicit StreamResetHandler(std::uint32_t first_number)
    {
        Done{static_cast<Refusal>(::dsq_start_reset_handler(numbers_.data(), first_number))}.never_refused();
    }
    bool is_underway() const { return numbers_[DSQ_HANDLER_UNDERWAY] != 0; }
    std::uint32_t *numbers() { return numbers_.data(); }

  private:
    std::array<std::uint32_t, DSQ_HANDLER_NUMBERS> numbers_{};
};

class SendQueue {
  public:
    // Refusals: 1, 2.
    static Result<SendQueue> create(const Options &options)
    {
        SendQueue made(options.store_length <= DSQ_MAX_STORE ? options.store_length : std::size_t{DSQ_MAX_STORE + 1});
        const std::uint32_t number =
            ::dsq_create(made.queue(), made.store().data(), made.store().size(), options.payload_limit, options.default_priority,
                         options.default_threshold, options.total_threshold, options.handover_with_data,
                         static_cast<std::uint8_t>(options.restart_rule));
        if (number != DSQ_ACCEPTED)
            return refusal(number);
        return made;
    }

    // A queue can be moved; one that was moved from is only destroyed or assigned to. A copy is asked for by name: both then send the
    // same messages.
    SendQueue(SendQueue &&) = default;
    SendQueue &operator=(SendQueue &&) = default;
    SendQueue clone() const
    {
        SendQueue copy(store_.size());
        *copy.arrays_ = *arrays_;
        copy.store_ = store_;
        copy.events_ = events_;
        return copy;
    }

    Done add(std::uint64_t time, const Message &m)
    {
        events_ = 0;
        return done(::dsq_add(queue(), store().data(), store().size(), m.payload.data(), m.payload.size(), time, m.stream_id, m.ppid,
                              m.unordered, m.lifetime.has_value(), m.lifetime.value_or(0), m.max_retransmissions.has_value(),
                              m.max_retransmissions.value_or(0), m.lifecycle_id));
    }

    // The next fragment, as long as the buffer at most; none where nothing waits.
    Result<std::optional<Sent>> produce(std::uint64_t time, Buffer buffer)
    {
        const Done call = reported(::dsq_produce(queue(), store().data(), store().size(), list(), DSQ_EVENT_WORDS, buffer.data(),
                                                 buffer.size(), out(), time, buffer.size()));
        if (!call)
            return call.refusal;
        if (value() == 0)
            return std::optional<Sent>();
        const Fragment told = ::dsq_fragment_of(out());
        return std::optional<Sent>(Sent{told, Bytes(buffer.data(), told.length)});
    }

    // A whole packet; none where nothing waits.
    Result<std::optional<Filled>> fill_packet(std::uint64_t time, Buffer packet, std::uint64_t limit, std::uint16_t source_port,
                                              std::uint16_t destination_port, std::uint32_t verification_tag, std::uint32_t tsn)
    {
        const Done call = reported(::dsq_fill_packet(queue(), store().data(), store().size(), list(), DSQ_EVENT_WORDS, packet.data(),
                                                     packet.size(), out(), time, limit, source_port, destination_port,
                                                     verification_tag, tsn));
        if (!call)
            return call.refusal;
        if (value() == 0)
            return std::optional<Filled>();
        return std::optional<Filled>(Filled{static_cast<std::size_t>(out()[DSQ_OUT_LENGTH]), static_cast<std::size_t>(value())});
    }

    void discard(std::uint16_t stream_id, std::uint32_t message_id)
    {
        reported(::dsq_discard(queue(), list(), DSQ_EVENT_WORDS, out(), stream_id, message_id)).never_refused();
    }

    Done prepare_reset_stream(std::uint16_t stream_id)
    {
        return reported(::dsq_prepare_reset_stream(queue(), list(), DSQ_EVENT_WORDS, out(), stream_id));
    }

    std::vector<std::uint16_t> get_streams_ready_to_reset()
    {
        events_ = 0;
        std::vector<std::uint16_t> ids(DSQ_MAX_STREAMS);
        done(::dsq_get_streams_ready_to_reset(queue(), ids.data(), out())).never_refused();
        ids.resize(static_cast<std::size_t>(value()));
        return ids;
    }

    void commit_reset_streams() { changed(::dsq_commit_reset_streams(queue())); }
    void rollback_reset_streams() { changed(::dsq_rollback_reset_streams(queue())); }
    void reset() { changed(::dsq_reset(queue())); }
    void enable_message_interleaving(bool enabled) { changed(::dsq_enable_message_interleaving(queue(), enabled)); }

    Done set_priority(std::uint16_t stream_id, std::uint16_t priority)
    {
        events_ = 0;
        return done(::dsq_set_priority(queue(), stream_id, priority));
    }

    Done set_buffered_amount_low_threshold(std::uint16_t stream_id, std::uint64_t threshold)
    {
        return reported(::dsq_set_buffered_amount_low_threshold(queue(), list(), DSQ_EVENT_WORDS, out(), stream_id, threshold));
    }

    // A request to the peer for all streams that are ready to be reset, and its bytes; 0 where none is. Refusals: 25, 26.
    Result<std::size_t> make_reset_request(StreamResetHandler &handler, Buffer output, std::uint32_t response_number,
                                           std::uint32_t last_tsn)
    {
        events_ = 0;
        const Done call = done(::dsq_make_reset_request(queue(), handler.numbers(), output.data(), output.size(), out(), response_number,
                                                        last_tsn));
        if (!call)
            return call.refusal;
        return static_cast<std::size_t>(value());
    }

    // The peer's response, and what it led to. Refusals: 27.
    Result<::dsq_response> handle_reset_response(StreamResetHandler &handler, Bytes bytes)
    {
        events_ = 0;
        const Done call = done(::dsq_handle_reset_response(queue(), handler.numbers(), bytes.data(), bytes.size(), out()));
        if (!call)
            return call.refusal;
        return static_cast<::dsq_response>(value());
    }

    void reset_through(StreamResetHandler &handler) { changed(::dsq_reset_through_handler(queue(), handler.numbers())); }

    // The events of the last call that is no question; a refused one has none.
    std::size_t event_count() const { return events_; }
    Event event(std::size_t k) const { return ::dsq_event_at(arrays_->events.data(), k); }

    std::uint64_t get_priority(std::uint16_t stream_id) const
    {
        return asked([&](std::uint64_t *told) { return ::dsq_get_priority(queue(), told, stream_id); });
    }
    std::uint64_t buffered_amount(std::uint16_t stream_id) const
    {
        return asked([&](std::uint64_t *told) { return ::dsq_buffered_amount(queue(), told, stream_id); });
    }
    std::uint64_t buffered_amount_low_threshold(std::uint16_t stream_id) const
    {
        return asked([&](std::uint64_t *told) { return ::dsq_buffered_amount_low_threshold(queue(), told, stream_id); });
    }
    bool has_data_to_send() const
    {
        return asked([&](std::uint64_t *told) { return ::dsq_has_data_to_send(queue(), told); }) != 0;
    }
    bool has_streams_ready_to_be_reset() const
    {
        return asked([&](std::uint64_t *told) { return ::dsq_has_streams_ready_to_be_reset(queue(), told); }) != 0;
    }
    std::size_t count_streams_ready_to_reset() const
    {
        return static_cast<std::size_t>(asked([&](std::uint64_t *told) { return ::dsq_count_streams_ready_to_reset(queue(), told); }));
    }
    std::uint64_t total_buffered_amount() const { return ::dsq_total_buffered_amount(queue()); }
    std::uint64_t free_bytes() const { return ::dsq_free_bytes(queue()); }
    std::uint64_t waiting_messages() const { return ::dsq_waiting_messages(queue()); }
    std::uint64_t known_streams() const { return ::dsq_known_streams(queue()); }
    bool is_empty() const { return ::dsq_is_empty(queue()) != 0; }
    std::uint64_t get_handover_readiness() const { return ::dsq_get_handover_readiness(queue()); }

    Result<std::vector<std::uint8_t>> save(std::uint64_t time) const
    {
        std::vector<std::uint8_t> image(DSQ_MAX_IMAGE(store_.size()));
        Words told{};
        const std::uint32_t number =
            ::dsq_save(queue(), store_.data(), store_.size(), image.data(), image.size(), told.data(), time);
        if (number != DSQ_ACCEPTED)
            return refusal(number);
        image.resize(static_cast<std::size_t>(told[DSQ_OUT_VALUE]));
        return image;
    }

    Done restore(std::uint64_t time, Bytes image)
    {
        events_ = 0;
        return done(::dsq_restore(queue(), store().data(), store().size(), image.data(), image.size(), time));
    }

    // For a call of send_queue.h that is not here.
    std::uint64_t *queue() { return arrays_->queue.data(); }
    const std::uint64_t *queue() const { return arrays_->queue.data(); }
    Buffer store() { return store_; }

  private:
    using Words = std::array<std::uint64_t, DSQ_OUT_WORDS>;
    struct Arrays {
        std::array<std::uint64_t, DSQ_QUEUE_WORDS> queue{};
        std::array<std::uint64_t, DSQ_EVENT_WORDS> events{};
        Words out{};
    };

    explicit SendQueue(std::size_t store_length) : arrays_(std::make_unique<Arrays>()), store_(store_length) {}

    static Refusal refusal(std::uint32_t number) { return static_cast<Refusal>(number); }
    static Done done(std::uint32_t number) { return Done{refusal(number)}; }

    void changed(std::uint32_t number)
    {
        events_ = 0;
        done(number).never_refused();
    }

    Done reported(std::uint32_t number)
    {
        events_ = number == DSQ_ACCEPTED ? static_cast<std::size_t>(out()[DSQ_OUT_EVENTS]) : 0;
        return done(number);
    }

    template <class Ask>
    std::uint64_t asked(Ask ask) const
    {
        Words told{};
        done(ask(told.data())).never_refused();
        return told[DSQ_OUT_VALUE];
    }

    std::uint64_t *list() { return arrays_->events.data(); }
    std::uint64_t *out() { return arrays_->out.data(); }
    std::uint64_t value() { return arrays_->out[DSQ_OUT_VALUE]; }

    std::unique_ptr<Arrays> arrays_;
    std::vector<std::uint8_t> store_;
    std::size_t events_ = 0;
};

} // namespace dsq

#endif
