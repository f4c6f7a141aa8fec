// node_application.h: an ns-3 node without ns-3's internet stack, whose interfaces are nodes of nd.h, hosts or routers. It sends and receives IPv6
// packets, forwards them between its interfaces, and answers echo requests.
#pragma once
#include "interface_node.h"
#include "ns3/application.h"
#include "ns3/icmpv6-header.h"
#include "ns3/node.h"

#include <memory>

namespace jondasik
{

/// An application that is the whole IPv6 of its ns-3 node.
class NodeApplication : public ns3::Application
{
  public:
    using Payload = ns3::Ptr<ns3::Packet>; ///< what follows an IPv6 header

    /// Called for each record of an interface that is no frame; it may be empty.
    std::function<void(size_t interface, const nd_out&)> onRecord;
    /// Called for each packet for this node, but for echo requests; it may be empty.
    std::function<void(size_t interface, const ns3::Ipv6Header&, Payload)> onPacket;
    /// Called for a packet to be forwarded for whose destination no interface has a next hop; it may be empty.
    std::function<void(const ns3::Ipv6Header&, Payload)> onNoRoute;

    /// Returns the type, `jondasik::NodeApplication`.
    static ns3::TypeId GetTypeId()
    {
        static const ns3::TypeId type = ns3::TypeId("jondasik::NodeApplication").SetParent<ns3::Application>().AddConstructor<NodeApplication>();
        return type;
    }

    /// Opens a node on a device of this ns-3 node. Returns the index of the interface.
    size_t AddInterface(const ns3::Ptr<ns3::NetDevice>& device, const Settings& settings)
    {
        const size_t index = m_ports.size();
        auto port = std::make_unique<Port>();
        Port* it = port.get();
        it->device = device;
        it->isRouter = settings.options.role == ND_ROLE_ROUTER;
        m_ports.push_back(std::move(port));
        Callbacks callbacks = {[]() { return true; }, [this, it, index](const nd_out& record) { Hear(*it, index, record); },
                               [this, index](const Outgoing& packet, Fate fate) { Decide(index, packet, fate); }};
        it->node = std::make_unique<InterfaceNode>(device, settings, std::move(callbacks));
        GetNode()->RegisterProtocolHandler(ns3::MakeCallback(&NodeApplication::Receive, this), ETHERNET_TYPE_IPV6, device);
        it->node->Open();
        return index;
    }

    /// Returns the node of an interface.
    InterfaceNode& At(size_t interface)
    {
        return *m_ports.at(interface)->node;
    }

    /// Returns an assigned address of an interface, link-local or global, or :: if there is none.
    ns3::Ipv6Address Address(size_t interface, bool isGlobal)
    {
        for (const ns3::Ipv6Address& address : AddressesOf(*m_ports.at(interface))) {
            if (address.IsLinkLocal() != isGlobal) {
                return address;
            }
        }
        return ns3::Ipv6Address::GetAny();
    }

    /// Sends a packet out of an interface, once its next hop is resolved. One that has no path is lost.
    void Send(size_t interface, const ns3::Ipv6Header& header, const Payload& payload)
    {
        Port& port = *m_ports.at(interface);
        const std::optional<ns3::Mac48Address> mac = port.node->Resolve({payload, header, header.GetDestination()}, header.GetDestination());
        if (mac) {
            const Payload packet = payload->Copy();
            packet->AddHeader(header);
            port.device->Send(packet, *mac, ETHERNET_TYPE_IPV6);
        }
    }

    /// Sends an echo request from the global address of an interface, or from its link-local one to a link-local destination (RFC 4443, 4.1).
    void Ping(size_t interface, const ns3::Ipv6Address& destination, uint16_t sequence)
    {
        ns3::Icmpv6Echo request(true);
        request.SetSeq(sequence);
        SendEcho(interface, {Address(interface, !destination.IsLinkLocal()), destination}, request, ns3::Create<ns3::Packet>(ECHO_BYTES));
    }

    /// Sends on a packet in transit, out of the first interface that has a next hop for its destination (RFC 8200, 3).
    void Forward(ns3::Ipv6Header header, const Payload& payload)
    {
        if (header.GetHopLimit() < 2) {
            return;
        }
        header.SetHopLimit(header.GetHopLimit() - 1);
        const nd_addr destination = ToNd(header.GetDestination());
        for (size_t index = 0; index < m_ports.size(); index++) {
            nd_next_hop_row hop;
            if (nd_next_hop(m_ports[index]->node->Node(), NowMs(), &destination, &hop) == ND_DONE) {
                return Send(index, header, payload);
            }
        }
        if (onNoRoute) {
            onNoRoute(header, payload);
        }
    }

    /// Returns an IPv6 header with a hop limit of 64 (RFC 8200, 3).
    static ns3::Ipv6Header HeaderOf(const ns3::Ipv6Address& source, const ns3::Ipv6Address& destination, uint8_t nextHeader, const Payload& payload)
    {
        ns3::Ipv6Header header;
        header.SetSource(source);
        header.SetDestination(destination);
        header.SetNextHeader(nextHeader);
        header.SetPayloadLength(payload->GetSize());
        header.SetHopLimit(64);
        return header;
    }

  protected:
    void DoDispose() override
    {
        m_ports.clear();
        Application::DoDispose();
    }

  private:
    static constexpr uint32_t ECHO_BYTES = 56; // of data in an echo request: our choice

    struct Port {
        std::unique_ptr<InterfaceNode> node;
        ns3::Ptr<ns3::NetDevice> device;
        bool isRouter = false;
        std::optional<std::vector<ns3::Ipv6Address>> addresses; // the assigned ones, if they were read since they last changed
    };

    struct Ends {
        ns3::Ipv6Address source, destination;
    };

    static const std::vector<ns3::Ipv6Address>& AddressesOf(Port& port)
    {
        if (!port.addresses) {
            port.addresses = port.node->Assigned();
        }
        return *port.addresses;
    }

    bool IsOurs(const ns3::Ipv6Address& address)
    {
        return std::any_of(m_ports.begin(), m_ports.end(), [&address](const std::unique_ptr<Port>& port) {
            const std::vector<ns3::Ipv6Address>& own = AddressesOf(*port);
            return std::count(own.begin(), own.end(), address) > 0;
        });
    }

    void Hear(Port& port, size_t index, const nd_out& record)
    {
        if (record.changes & ND_CHANGE_ADDRESSES) {
            port.addresses.reset();
        }
        if (onRecord) {
            onRecord(index, record);
        }
    }

    void Decide(size_t index, const Outgoing& packet, Fate fate)
    {
        if (fate == Fate::Ready) {
            Send(index, packet.header, packet.payload);
        }
    }

    void Receive(ns3::Ptr<ns3::NetDevice> device, ns3::Ptr<const ns3::Packet> packet, uint16_t, const ns3::Address&, const ns3::Address&,
                 ns3::NetDevice::PacketType)
    {
        const auto found = std::find_if(m_ports.begin(), m_ports.end(), [&device](const auto& port) { return port->device == device; });
        const Payload payload = packet->Copy();
        ns3::Ipv6Header header;
        payload->RemoveHeader(header);
        if (payload->GetSize() > header.GetPayloadLength()) { // padding of a short frame
            payload->RemoveAtEnd(payload->GetSize() - header.GetPayloadLength());
        }
        if (IsNeighborDiscovery(header, payload)) {
            (*found)->node->Hear(header, payload);
        } else if (IsOurs(header.GetDestination())) {
            Deliver(found - m_ports.begin(), header, payload);
        } else if ((*found)->isRouter && !header.GetDestination().IsMulticast()) {
            Forward(header, payload);
        }
    }

    void Deliver(size_t index, const ns3::Ipv6Header& header, const Payload& payload)
    {
        uint8_t type = 0;
        payload->CopyData(&type, 1);
        if (header.GetNextHeader() == NEXT_HEADER_ICMPV6 && type == ns3::Icmpv6Header::ICMPV6_ECHO_REQUEST) {
            ns3::Icmpv6Echo request, reply(false);
            payload->RemoveHeader(request);
            reply.SetId(request.GetId());
            reply.SetSeq(request.GetSeq());
            SendEcho(index, {header.GetDestination(), header.GetSource()}, reply, payload);
        } else if (onPacket) {
            onPacket(index, header, payload);
        }
    }

    void SendEcho(size_t index, const Ends& ends, ns3::Icmpv6Echo& echo, const Payload& data)
    {
        echo.CalculatePseudoHeaderChecksum(ends.source, ends.destination, data->GetSize() + echo.GetSerializedSize(), NEXT_HEADER_ICMPV6);
        data->AddHeader(echo);
        Send(index, HeaderOf(ends.source, ends.destination, NEXT_HEADER_ICMPV6, data), data);
    }

    std::vector<std::unique_ptr<Port>> m_ports;
};

} // namespace jondasik
