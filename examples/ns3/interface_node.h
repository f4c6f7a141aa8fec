// interface_node.h: a node of nd.h on one device of ns-3. It gives the node its clock and its timer, sends its frames, and keeps the packets that
// wait for a next hop and the leases of paths. Two stacks are over it: node_application.h and node_icmpv6.h.
#pragma once
#include "nd.h"
#include "ns3/abort.h"
#include "ns3/ipv6-address.h"
#include "ns3/ipv6-header.h"
#include "ns3/mac48-address.h"
#include "ns3/net-device.h"
#include "ns3/packet.h"
#include "ns3/simulator.h"

#include <algorithm>
#include <array>
#include <cstring>
#include <deque>
#include <functional>
#include <map>
#include <optional>
#include <string>
#include <utility>
#include <vector>

namespace jondasik
{

constexpr uint16_t ETHERNET_TYPE_IPV6 = 0x86dd; // RFC 2464, 3
constexpr size_t ETHERNET_HEADER = 14;          // bytes
constexpr uint8_t NEXT_HEADER_ICMPV6 = 58;      // RFC 4443, 1

/// Returns the time of the simulation in milliseconds, of which the moments of all nodes are.
inline uint64_t NowMs()
{
    return ns3::Simulator::Now().GetMilliSeconds();
}

/// Returns an address of ns-3 as one of nd.h.
inline nd_addr ToNd(const ns3::Ipv6Address& address)
{
    nd_addr bytes;
    address.GetBytes(bytes.bytes);
    return bytes;
}

/// Returns an address of nd.h as one of ns-3.
inline ns3::Ipv6Address ToNs3(const nd_addr& address)
{
    nd_addr copy = address; // ns-3 takes no const bytes
    return ns3::Ipv6Address(copy.bytes);
}

/// Returns true if a packet has a message of Neighbor Discovery, ICMPv6 of types 133 to 137 (RFC 4861, 4). `payload` follows the IPv6 header.
inline bool IsNeighborDiscovery(const ns3::Ipv6Header& header, const ns3::Ptr<const ns3::Packet>& payload)
{
    uint8_t type = 0;
    return header.GetNextHeader() == NEXT_HEADER_ICMPV6 && payload->CopyData(&type, 1) == 1 && type >= 133 && type <= 137;
}

/// How a node is opened.
struct Settings {
    nd_options options = ND_OPTIONS_INIT;    ///< `mac` and `start` are ignored: they are the device's address and the time of the simulation
    bool hearsDetectionOfNs3 = true;         ///< a Neighbor Solicitation from :: is heard without its Source Link-Layer Address option
    std::function<void(nd_node*)> configure; ///< called each time the node was opened, such as for nd_advertise; it may be empty
};

/// A packet that a stack sends.
struct Outgoing {
    ns3::Ptr<ns3::Packet> payload; ///< what follows the IPv6 header
    ns3::Ipv6Header header;
    ns3::Ipv6Address next; ///< the stack's own next hop, if it has chosen one; else the destination
};

/// What becomes of a packet for which InterfaceNode::Resolve returned no link-layer address.
enum class Fate {
    Ready,       ///< its next hop is resolved: the stack sends it again
    Unreachable, ///< its next hop is not: the stack sends an ICMPv6 error (RFC 4861, 7.2.2)
    Dropped      ///< it has no next hop, was refused, or three later packets wait for its next hop
};

/// What a stack does with what its node reports.
struct Callbacks {
    std::function<bool()> isUp;                        ///< returns true if frames may be sent
    std::function<void(const nd_out&)> onRecord;       ///< called for a record that is no frame
    std::function<void(const Outgoing&, Fate)> onFate; ///< called for a packet that waited, or has no path
};

/// A node of nd.h on a device of ns-3.
class InterfaceNode
{
  public:
    /// Makes a closed node: the caller opens it once it can take the callbacks.
    InterfaceNode(ns3::Ptr<ns3::NetDevice> device, const Settings& settings, Callbacks callbacks)
        : m_device(device), m_settings(settings), m_callbacks(std::move(callbacks))
    {
    }
    ~InterfaceNode()
    {
        ns3::Simulator::Cancel(m_timer);
        nd_close(&m_node);
    }
    InterfaceNode(const InterfaceNode&) = delete;
    InterfaceNode& operator=(const InterfaceNode&) = delete;

    /// Returns the node, for questions. After an event of it the caller calls Settle.
    nd_node* Node()
    {
        return &m_node;
    }

    /// Opens the node. Where it is open already, the link was down: it begins anew, and all leases end (nd.h, WHAT A NODE DOES NOT DO; nd_close).
    void Open()
    {
        nd_options options = m_settings.options;
        ns3::Mac48Address::ConvertFrom(m_device->GetAddress()).CopyTo(options.mac.bytes);
        options.start = NowMs();
        options.lease_version = nd_lease_version(&m_node) + 1;
        nd_close(&m_node);
        m_waiting.clear();
        const int32_t status = nd_open(&m_node, &options, sizeof options);
        NS_ABORT_MSG_IF(status != ND_DONE, "nd_open returned " << status);
        if (m_settings.configure) {
            m_settings.configure(&m_node);
        }
        Settle();
    }

    /// Takes all records, and has nd_pass called at the moment at which something is due next. Called after each event of the node.
    void Settle()
    {
        Poll();
        while (!m_decided.empty()) {
            for (const auto& [packet, fate] : std::exchange(m_decided, {})) {
                m_callbacks.onFate(packet, fate);
            }
            Poll();
        }
        Schedule();
    }

    /// Receives a message of Neighbor Discovery, from the type of ICMPv6 on. One for which the node is out of memory is as if the link had lost it.
    void Hear(const ns3::Ipv6Header& header, const ns3::Ptr<const ns3::Packet>& payload)
    {
        std::vector<uint8_t> bytes(payload->GetSize());
        payload->CopyData(bytes.data(), bytes.size());
        nd_message message = {ToNd(header.GetSource()), ToNd(header.GetDestination()), header.GetHopLimit(), 0, 0};
        size_t length = bytes.size();
        if (m_settings.hearsDetectionOfNs3 && IsDetectionOfNs3(header, payload)) {
            message.checksum_good = 1; // nd_hear has looked
            length = SOLICITATION;
        }
        nd_receive_message(&m_node, NowMs(), &message, bytes.data(), length);
        Settle();
    }

    /// Returns the link-layer address to which packets for `destination` go now (RFC 4861, 5.2 and 7.2.2). Returns none if `packet` waits for it, or
    /// has no path: the callback onFate says then what becomes of it.
    std::optional<ns3::Mac48Address> Resolve(const Outgoing& packet, const ns3::Ipv6Address& destination)
    {
        const uint64_t now = NowMs();
        const nd_addr to = ToNd(destination);
        Lease& lease = m_leases[(to.bytes[14] ^ to.bytes[15]) % m_leases.size()];
        if (now < lease.path.until && lease.path.version == nd_lease_version(&m_node) && lease.destination == destination) {
            return MacOf(lease.path);
        }
        nd_pass(&m_node, now); // a failure that is due is of packets that waited before this one
        Poll();
        lease = {destination, {}};
        const int32_t status = nd_resolve(&m_node, now, &to, &lease.path);
        const nd_path path = lease.path; // what Settle sends may take the place of the lease
        if (status == ND_WAITING) {
            Keep(ToNs3(path.next_hop), packet);
        } else if (status != ND_DONE) {
            m_decided.emplace_back(packet, Fate::Dropped);
        }
        Settle();
        return status == ND_DONE ? std::make_optional(MacOf(path)) : std::nullopt;
    }

    /// Returns the node's assigned addresses, in the order of addresses (RFC 4862, 5.4).
    std::vector<ns3::Ipv6Address> Assigned()
    {
        std::array<nd_address_row, 64> rows; // the most that a node has
        size_t count = 0;
        nd_addresses(&m_node, NowMs(), rows.data(), rows.size(), &count);
        std::vector<ns3::Ipv6Address> addresses;
        for (size_t i = 0; i < count; i++) {
            if (rows[i].state == ND_STATE_PREFERRED || rows[i].state == ND_STATE_DEPRECATED) {
                addresses.push_back(ToNs3(rows[i].address));
            }
        }
        return addresses;
    }

    /// Returns the default routers, in the order in which they entered the list (RFC 4861, 5.1).
    std::vector<ns3::Ipv6Address> Routers()
    {
        std::array<nd_router_row, 64> rows; // the most that a node has
        size_t count = 0;
        nd_routers(&m_node, NowMs(), rows.data(), rows.size(), &count);
        std::vector<ns3::Ipv6Address> routers;
        std::transform(rows.begin(), rows.begin() + count, std::back_inserter(routers), [](const nd_router_row& row) { return ToNs3(row.address); });
        return routers;
    }

  private:
    struct Lease { // packets to `destination` go to `path.mac` until `path.until`, while the lease version is `path.version` (nd_resolve)
        ns3::Ipv6Address destination;
        nd_path path;
    };

    static constexpr uint8_t NEIGHBOR_SOLICITATION = 135; // a type of ICMPv6 (RFC 4861, 4.3)
    static constexpr size_t SOLICITATION = 24;            // bytes of one without options
    static constexpr size_t LINK_LAYER_OPTION = 8;        // bytes of a Source Link-Layer Address option of Ethernet (RFC 2464, 6)
    static constexpr size_t MOST_WAITING = 3;             // packets for one next hop, as many as the node itself keeps

    static ns3::Mac48Address MacOf(const nd_path& path)
    {
        ns3::Mac48Address mac;
        mac.CopyFrom(path.mac.bytes);
        return mac;
    }

    // Returns true if a message is a Neighbor Solicitation from :: whose one option is a Source Link-Layer Address (RFC 4861, 7.1.1). nd_hear names
    // the first reason to drop it: if that is this one, the hop limit, the checksum and the lengths are good.
    static bool IsDetectionOfNs3(const ns3::Ipv6Header& header, const ns3::Ptr<const ns3::Packet>& payload)
    {
        uint8_t type = 0;
        payload->CopyData(&type, 1);
        if (!header.GetSource().IsAny() || type != NEIGHBOR_SOLICITATION || payload->GetSize() != SOLICITATION + LINK_LAYER_OPTION) {
            return false;
        }
        ns3::Ptr<ns3::Packet> packet = payload->Copy();
        packet->AddHeader(header);
        std::vector<uint8_t> frame(ETHERNET_HEADER + packet->GetSize());
        frame[12] = ETHERNET_TYPE_IPV6 >> 8;
        frame[13] = ETHERNET_TYPE_IPV6 & 0xff;
        packet->CopyData(&frame[ETHERNET_HEADER], packet->GetSize());
        nd_heard heard;
        nd_hear(frame.data(), frame.size(), ND_ROLE_HOST, &heard);
        return heard.hearing == ND_HEARING_DROP && heard.why == ND_WHY_UNSPECIFIED_SLLA;
    }

    void Poll()
    {
        std::array<uint8_t, ND_BUFFER_BYTES> buffer;
        nd_out record;
        while (nd_poll(&m_node, &record, buffer.data(), buffer.size()) == ND_DONE) {
            if (record.kind == ND_OUT_FRAME) {
                Transmit(buffer.data(), record.length);
                continue;
            }
            if (record.kind == ND_OUT_RESOLVED || record.kind == ND_OUT_FAILED) {
                Release(ToNs3(record.address), record.kind == ND_OUT_RESOLVED ? Fate::Ready : Fate::Unreachable);
            }
            m_callbacks.onRecord(record);
        }
    }

    void Transmit(const uint8_t* frame, size_t length)
    {
        ns3::Mac48Address to;
        to.CopyFrom(frame);
        if (m_callbacks.isUp()) { // ns-3 writes the Ethernet header itself
            m_device->Send(ns3::Create<ns3::Packet>(frame + ETHERNET_HEADER, length - ETHERNET_HEADER), to, ETHERNET_TYPE_IPV6);
        }
    }

    void Schedule()
    {
        const uint64_t due = nd_next_due(&m_node);
        if (due == m_due && m_timer.IsRunning()) {
            return;
        }
        ns3::Simulator::Cancel(m_timer);
        m_due = due;
        if (due == UINT64_MAX) { // the node is not open yet
            return;
        }
        const ns3::Time left = ns3::MilliSeconds(due) - ns3::Simulator::Now();
        m_timer = ns3::Simulator::Schedule(ns3::Max(left, ns3::Seconds(0)), &InterfaceNode::Pass, this);
    }

    void Pass()
    {
        nd_pass(&m_node, NowMs());
        Settle();
    }

    void Keep(const ns3::Ipv6Address& nextHop, const Outgoing& packet)
    {
        std::deque<Outgoing>& queue = m_waiting[nextHop];
        if (queue.size() == MOST_WAITING) { // a new packet replaces the oldest (RFC 4861, 7.2.2)
            m_decided.emplace_back(std::move(queue.front()), Fate::Dropped);
            queue.pop_front();
        }
        queue.push_back(packet);
    }

    void Release(const ns3::Ipv6Address& nextHop, Fate fate)
    {
        auto queue = m_waiting.extract(nextHop);
        if (queue.empty()) {
            return;
        }
        for (Outgoing& packet : queue.mapped()) {
            m_decided.emplace_back(std::move(packet), fate);
        }
    }

    nd_node m_node = ND_NODE_INIT;
    ns3::Ptr<ns3::NetDevice> m_device;
    Settings m_settings;
    Callbacks m_callbacks;
    ns3::EventId m_timer;
    uint64_t m_due = UINT64_MAX;
    std::array<Lease, 64> m_leases = {};
    std::map<ns3::Ipv6Address, std::deque<Outgoing>> m_waiting; // by next hop
    std::vector<std::pair<Outgoing, Fate>> m_decided;           // packets for which onFate is to be called
};

} // namespace jondasik
