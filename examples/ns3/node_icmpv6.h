// node_icmpv6.h: a node of nd.h in place of the Neighbor Discovery of ns-3's Icmpv6L4Protocol. The rest of ns-3's stack is unmodified and over it:
// the rest of ICMPv6, IPv6, routing, UDP, TCP and sockets. InstallInternetStack is called in place of InternetStackHelper::Install.
#pragma once
#include "interface_node.h"
#include "ns3/boolean.h"
#include "ns3/icmpv6-l4-protocol.h"
#include "ns3/ipv6-interface.h"
#include "ns3/ipv6-l3-protocol.h"
#include "ns3/ipv6-routing-protocol.h"
#include "ns3/ipv6-static-routing-helper.h"
#include "ns3/ndisc-cache.h"
#include "ns3/node.h"
#include "ns3/object-factory.h"
#include "ns3/packet-socket-factory.h"

#include <memory>

namespace jondasik
{

/// ICMPv6 of an ns-3 node. Each device with an IPv6 interface has a node of its own, which is opened each time the interface is set up.
class NodeIcmpv6 : public ns3::Icmpv6L4Protocol
{
  public:
    std::function<void(ns3::Ptr<ns3::NetDevice>, const nd_out&)> onRecord; ///< called for each record that is no frame; it may be empty

    /// Returns the type, `jondasik::NodeIcmpv6`.
    static ns3::TypeId GetTypeId()
    {
        static const ns3::TypeId type = ns3::TypeId("jondasik::NodeIcmpv6").SetParent<ns3::Icmpv6L4Protocol>().AddConstructor<NodeIcmpv6>();
        return type;
    }
    ns3::TypeId GetInstanceTypeId() const override
    {
        return GetTypeId();
    }

    /// Sets how nodes are opened, of devices that get an IPv6 interface afterwards. The seed of each is that of the one before, plus 1.
    void SetSettings(const Settings& settings)
    {
        m_settings = settings;
    }

    /// Returns the node on a device, or nothing if the device has no IPv6 interface.
    InterfaceNode* On(const ns3::Ptr<ns3::NetDevice>& device)
    {
        Port* port = PortOf(device);
        return port ? port->node.get() : nullptr;
    }

    /// Makes the node of an interface. ns-3 calls it when the interface is set up first. The cache that it returns stays empty.
    ns3::Ptr<ns3::NdiscCache> CreateCache(ns3::Ptr<ns3::NetDevice> device, ns3::Ptr<ns3::Ipv6Interface> interface) override
    {
        auto port = std::make_unique<Port>();
        Port* it = port.get();
        it->interface = interface;
        it->device = device;
        it->mtu = device->GetMtu();
        Callbacks callbacks = {[it]() { return it->interface->IsUp(); }, [this, it](const nd_out& record) { Show(*it, record); },
                               [this, it](const Outgoing& packet, Fate fate) { Decide(*it, packet, fate); }};
        it->node = std::make_unique<InterfaceNode>(device, m_settings, std::move(callbacks));
        m_settings.options.seed++;
        m_ports[device] = std::move(port);
        interface->RemoveAddressCallback(ns3::MakeCallback(&NodeIcmpv6::Remove, this));
        return Icmpv6L4Protocol::CreateCache(device, interface);
    }

    /// Opens the node of an interface that was set up, which its new link-local address shows; or gives the node an address of the user, which is
    /// tried (RFC 4862, 5.4). With the attribute DAD false ns-3 calls it as soon as an interface has an address.
    void FunctionDadTimeout(ns3::Ipv6Interface* interface, ns3::Ipv6Address address) override
    {
        Port* port = PortOf(interface->GetDevice());
        if (!port) { // the loopback interface
            Icmpv6L4Protocol::FunctionDadTimeout(interface, address);
        } else if (address == interface->GetLinkLocalAddress().GetAddress()) {
            port->node->Open();
            ShowRouter(*port);
        } else {
            Give(*port, address);
            port->node->Settle();
        }
    }

    using ns3::Icmpv6L4Protocol::Receive;

    /// Passes messages of Neighbor Discovery to the node, and others to ns-3.
    RxStatus Receive(ns3::Ptr<ns3::Packet> packet, const ns3::Ipv6Header& header, ns3::Ptr<ns3::Ipv6Interface> interface) override
    {
        Port* port = PortOf(interface->GetDevice());
        if (!port || !IsNeighborDiscovery(header, packet)) {
            return Icmpv6L4Protocol::Receive(packet, header, interface);
        }
        port->node->Hear(header, packet);
        return RX_OK;
    }

    /// Returns true if the next hop of a packet is resolved; `hardware` has its link-layer address then. Else the packet waits, or is dropped. Where
    /// ns-3's routing chose a default router, the node chooses between the routers, and by Redirects (RFC 4861, 6.3.6 and 8.3).
    bool Lookup(ns3::Ptr<ns3::Packet> packet, const ns3::Ipv6Header& header, ns3::Ipv6Address next, ns3::Ptr<ns3::NetDevice> device,
                ns3::Ptr<ns3::NdiscCache>, ns3::Address* hardware) override
    {
        Port* port = PortOf(device);
        const ns3::Ipv6Address asked = next == port->router ? header.GetDestination() : next;
        const std::optional<ns3::Mac48Address> mac = port->node->Resolve({packet, header, next}, asked);
        if (mac) {
            *hardware = *mac;
        }
        return mac.has_value();
    }

    /// Returns true if the link-layer address of a neighbour is known; `hardware` has it then. Nothing is sent. ns-3 asks where it sends a Redirect.
    bool Lookup(ns3::Ipv6Address neighbour, ns3::Ptr<ns3::NetDevice> device, ns3::Ptr<ns3::NdiscCache>, ns3::Address* hardware) override
    {
        const nd_addr address = ToNd(neighbour);
        nd_neighbour_row row;
        if (nd_neighbour_of(On(device)->Node(), NowMs(), &address, &row) != ND_DONE || !row.has_mac) {
            return false;
        }
        ns3::Mac48Address mac;
        mac.CopyFrom(row.mac.bytes);
        *hardware = mac;
        return true;
    }

  protected:
    void DoDispose() override
    {
        m_ports.clear();
        Icmpv6L4Protocol::DoDispose();
    }

  private:
    struct Port {
        ns3::Ptr<ns3::Ipv6Interface> interface;
        ns3::Ptr<ns3::NetDevice> device;
        uint16_t mtu = 0; // the device's own, in bytes
        std::unique_ptr<InterfaceNode> node;
        ns3::Ipv6Address router;               // that of ns-3's default route, or ::
        std::vector<ns3::Ipv6Address> untried; // addresses of the user that wait until the link-local one is assigned
    };

    Port* PortOf(const ns3::Ptr<ns3::NetDevice>& device)
    {
        const auto found = m_ports.find(device);
        return found == m_ports.end() ? nullptr : found->second.get();
    }

    ns3::Ptr<ns3::Ipv6L3Protocol> Ipv6()
    {
        return GetNode()->GetObject<ns3::Ipv6L3Protocol>();
    }

    uint32_t IndexOf(const Port& port)
    {
        return Ipv6()->GetInterfaceForDevice(port.device);
    }

    // Gives the node an address of an interface for ever. The node has it already where it formed it.
    static void Give(Port& port, const ns3::Ipv6Address& address)
    {
        const std::vector<ns3::Ipv6Address> assigned = port.node->Assigned();
        if (std::count(assigned.begin(), assigned.end(), address) > 0 || !HasAddress(port, address)) {
            return;
        }
        const nd_own_address own = {ToNd(address), ND_LIFETIME_INFINITE, ND_LIFETIME_INFINITE};
        const int32_t status = nd_add_address(port.node->Node(), NowMs(), &own);
        if (nd_refusal_of(status) == ND_REFUSAL_TENTATIVE || status == ND_CLOSED) {
            port.untried.push_back(address);
        }
    }

    // Takes an address from the node that was removed from an interface.
    void Remove(ns3::Ptr<ns3::Ipv6Interface> interface, ns3::Ipv6InterfaceAddress removed)
    {
        if (Port* port = PortOf(interface->GetDevice())) {
            const nd_addr address = ToNd(removed.GetAddress());
            nd_remove_address(port->node->Node(), NowMs(), &address);
            port->node->Settle();
        }
    }

    // Shows in ns-3's tables what a record reports.
    void Show(Port& port, const nd_out& record)
    {
        const ns3::Ipv6Address address = ToNs3(record.address);
        if (record.kind == ND_OUT_ASSIGNED) {
            ShowAssigned(port, address);
        } else if (record.kind == ND_OUT_DUPLICATE) {
            port.interface->SetState(address, ns3::Ipv6InterfaceAddress::INVALID);
        } else if (record.kind == ND_OUT_ENDED_ADDRESS) {
            Ipv6()->RemoveAddress(IndexOf(port), address);
        }
        if (record.changes & ND_CHANGE_PARAMETERS) {
            ShowMtu(port);
        }
        if (record.changes & (ND_CHANGE_ROUTERS | ND_CHANGE_ADDRESSES)) {
            ShowRouter(port);
        }
        if (onRecord) {
            onRecord(port.device, record);
        }
    }

    void ShowAssigned(Port& port, const ns3::Ipv6Address& address)
    {
        if (!HasAddress(port, address)) {
            Ipv6()->AddAddress(IndexOf(port), ns3::Ipv6InterfaceAddress(address, ns3::Ipv6Prefix(64)));
        }
        port.interface->SetState(address, ns3::Ipv6InterfaceAddress::PREFERRED);
        if (address == port.interface->GetLinkLocalAddress().GetAddress()) {
            for (const ns3::Ipv6Address& each : std::exchange(port.untried, {})) {
                Give(port, each);
            }
        }
    }

    // Keeps one default route in ns-3's routing table while the node has a default router, and the interface a global address, without which ns-3
    // has no source for it. By which router a packet goes the node says: Lookup.
    void ShowRouter(Port& port)
    {
        const auto isGlobal = [](const ns3::Ipv6InterfaceAddress& each) { return each.GetScope() == ns3::Ipv6InterfaceAddress::GLOBAL; };
        const ns3::Ipv6Address any = ns3::Ipv6Address::GetAny();
        const std::vector<ns3::Ipv6Address> routers = port.node->Routers();
        const ns3::Ipv6Address router = routers.empty() || !HasAddressThat(port, isGlobal) ? any : routers.front();
        if (router == port.router) {
            return;
        }
        const ns3::Ptr<ns3::Ipv6RoutingProtocol> routing = Ipv6()->GetRoutingProtocol();
        if (!port.router.IsAny()) {
            routing->NotifyRemoveRoute(any, ns3::Ipv6Prefix::GetZero(), port.router, IndexOf(port), any);
        }
        if (!router.IsAny()) {
            routing->NotifyAddRoute(any, ns3::Ipv6Prefix::GetZero(), router, IndexOf(port), any);
        }
        port.router = router;
    }

    static bool HasAddress(const Port& port, const ns3::Ipv6Address& address)
    {
        return HasAddressThat(port, [&address](const ns3::Ipv6InterfaceAddress& each) { return each.GetAddress() == address; });
    }

    template <class Predicate> static bool HasAddressThat(const Port& port, Predicate isWanted)
    {
        for (uint32_t i = 0; i < port.interface->GetNAddresses(); i++) {
            if (isWanted(port.interface->GetAddress(i))) {
                return true;
            }
        }
        return false;
    }

    static void ShowMtu(Port& port) // ns-3 sends by the device's (RFC 4861, 6.3.4)
    {
        nd_parameters_row row;
        nd_parameters_of(port.node->Node(), NowMs(), &row);
        port.device->SetMtu(std::min<uint32_t>(port.mtu, row.mtu));
    }

    void Decide(Port& port, const Outgoing& packet, Fate fate)
    {
        if (fate == Fate::Ready) {
            port.interface->Send(packet.payload, packet.header, packet.next);
        } else if (fate == Fate::Unreachable) {
            const ns3::Ptr<ns3::Packet> whole = packet.payload->Copy();
            whole->AddHeader(packet.header);
            SendErrorDestinationUnreachable(whole, packet.header.GetSource(), ns3::Icmpv6Header::ICMPV6_ADDR_UNREACHABLE);
        }
    }

    Settings m_settings;
    std::map<ns3::Ptr<ns3::NetDevice>, std::unique_ptr<Port>> m_ports;
};

/// Returns the settings of a router under ns-3's routing: ns-3 chooses each next hop, so for the node all of them are on the link.
inline Settings RouterSettings(uint64_t seed, std::function<void(nd_node*)> configure)
{
    Settings settings;
    settings.options.role = ND_ROLE_ROUTER;
    settings.options.seed = seed;
    settings.configure = [configure](nd_node* node) {
        const nd_route_row onLink = {{}, {}, 0, ND_HOP_DIRECT};
        nd_add_route(node, NowMs(), &onLink);
        configure(node);
    };
    return settings;
}

/// Gives an ns-3 node the stack that InternetStackHelper gives it, without IPv4, and with NodeIcmpv6, which it returns.
inline ns3::Ptr<NodeIcmpv6> InstallInternetStack(const ns3::Ptr<ns3::Node>& node, const Settings& settings)
{
    const auto add = [&node](const ns3::TypeId& type) {
        ns3::ObjectFactory factory;
        factory.SetTypeId(type);
        node->AggregateObject(factory.Create<ns3::Object>());
    };
    add(ns3::Ipv6L3Protocol::GetTypeId());
    const ns3::Ptr<NodeIcmpv6> icmpv6 = ns3::CreateObject<NodeIcmpv6>();
    icmpv6->SetAttribute("DAD", ns3::BooleanValue(false));
    icmpv6->SetSettings(settings);
    node->AggregateObject(icmpv6);
    const ns3::Ptr<ns3::Ipv6> ipv6 = node->GetObject<ns3::Ipv6>();
    ipv6->SetRoutingProtocol(ns3::Ipv6StaticRoutingHelper().Create(node));
    ipv6->RegisterExtensions();
    ipv6->RegisterOptions();
    for (const char* name : {"ns3::TrafficControlLayer", "ns3::UdpL4Protocol", "ns3::TcpL4Protocol"}) {
        add(ns3::TypeId::LookupByName(name));
    }
    node->AggregateObject(ns3::CreateObject<ns3::PacketSocketFactory>());
    return icmpv6;
}

} // namespace jondasik
