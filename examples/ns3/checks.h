// checks.h: what the programs of this folder share: a link, ns-3 nodes on it, echo requests of ns-3's, and checks, which are counted.
#pragma once
#include "interface_node.h"
#include "nd_text.h"
#include "ns3/core-module.h"
#include "ns3/csma-module.h"
#include "ns3/internet-apps-module.h"
#include "ns3/internet-module.h"
#include "ns3/network-module.h"

#include <iostream>

namespace jondasik
{

/// Counts checks, and prints each.
class Checks
{
  public:
    /// Counts a check that is passed if `isSo`.
    void That(bool isSo, const std::string& what)
    {
        (isSo ? m_passed : m_failed)++;
        std::cout << (isSo ? "passed: " : "FAILED: ") << what << std::endl;
    }
    /// Counts a check that is passed if the numbers are equal, and prints both.
    void Equal(uint64_t wanted, uint64_t found, const std::string& what)
    {
        That(found == wanted, what + ": " + std::to_string(found) + " of " + std::to_string(wanted));
    }
    /// Prints the last line. Returns the exit status.
    int Result() const
    {
        std::cout << m_passed << " passed, " << m_failed << " failed" << std::endl;
        return m_failed > 0;
    }

  private:
    int m_passed = 0, m_failed = 0;
};

/// Counts what a node reports: the frames that it dropped, by reason, and the addresses that it found to be duplicates.
struct Reports {
    std::map<uint32_t, int> dropped; // by enum nd_why
    int duplicates = 0;

    /// Counts a record.
    void Add(const nd_out& record)
    {
        if (record.kind == ND_OUT_DROPPED) {
            dropped[record.code]++;
        }
        duplicates += record.kind == ND_OUT_DUPLICATE;
    }
    /// Prints the reasons, but for messages that are for others.
    void Print(const char* name) const
    {
        for (const auto& [why, count] : dropped) {
            if (why != ND_WHY_NOT_FOR_US) {
                std::cout << "  " << name << " dropped " << count << ": " << nd_why_text(why) << "\n";
            }
        }
    }
};

/// Returns the devices of nodes on a link of Ethernet, of 100 Mbit/s and with a delay of 2 us.
inline ns3::NetDeviceContainer Link(const ns3::NodeContainer& nodes)
{
    ns3::CsmaHelper csma;
    csma.SetChannelAttribute("DataRate", ns3::StringValue("100Mbps"));
    csma.SetChannelAttribute("Delay", ns3::StringValue("2us"));
    return csma.Install(nodes);
}

/// Gives nodes ns-3's own stack, without IPv4.
inline void InstallOwnStack(const ns3::NodeContainer& nodes)
{
    ns3::InternetStackHelper stack;
    stack.SetIpv4StackInstall(false);
    stack.Install(nodes);
}

/// Gives a device an IPv6 interface, with its link-local address.
inline void SetUp(const ns3::Ptr<ns3::NetDevice>& device)
{
    ns3::Ipv6AddressHelper().AssignWithoutAddress(ns3::NetDeviceContainer(device));
}

/// Returns the global address of an ns-3 node at an interface, from 1 on, or :: if it has none.
inline ns3::Ipv6Address GlobalOf(const ns3::Ptr<ns3::Node>& node, uint32_t interface = 1)
{
    const ns3::Ptr<ns3::Ipv6> ipv6 = node->GetObject<ns3::Ipv6>();
    for (uint32_t i = 0; i < ipv6->GetNAddresses(interface); i++) {
        const ns3::Ipv6InterfaceAddress address = ipv6->GetAddress(interface, i);
        if (address.GetScope() == ns3::Ipv6InterfaceAddress::GLOBAL) {
            return address.GetAddress();
        }
    }
    return ns3::Ipv6Address::GetAny();
}

/// Makes what an ns-3 node sends as a router valid, without a change of ns-3: hosts drop Router Advertisements and Redirects whose hop limit is not
/// 255 (RFC 4861, 6.1.2 and 8.1). Those of Radvd have the node's default, 64 if it is not set; Redirects always have 64.
inline void RepairRouter(const ns3::Ptr<ns3::Node>& node)
{
    node->GetObject<ns3::Ipv6>()->SetAttribute("DefaultTtl", ns3::UintegerValue(255));
    const ns3::Ptr<ns3::IpL4Protocol> icmpv6 = node->GetObject<ns3::Icmpv6L4Protocol>();
    const ns3::IpL4Protocol::DownTargetCallback6 send = icmpv6->GetDownTarget6();
    icmpv6->SetDownTarget6(ns3::Callback<void, ns3::Ptr<ns3::Packet>, ns3::Ipv6Address, ns3::Ipv6Address, uint8_t, ns3::Ptr<ns3::Ipv6Route>>(
        [send](ns3::Ptr<ns3::Packet> packet, ns3::Ipv6Address from, ns3::Ipv6Address to, uint8_t protocol, ns3::Ptr<ns3::Ipv6Route> route) {
            uint8_t type = 0;
            packet->CopyData(&type, 1);
            ns3::SocketIpv6HopLimitTag hopLimit;
            if (type == ns3::Icmpv6Header::ICMPV6_ND_REDIRECTION && packet->RemovePacketTag(hopLimit)) {
                hopLimit.SetHopLimit(255);
                packet->AddPacketTag(hopLimit);
            }
            send(packet, from, to, protocol, route);
        }));
}

/// How AddRadvd announces a prefix of 64 bits, which ends in `::`.
struct Announced {
    std::string prefix;
    bool isOnLink = true; // the flag L (RFC 4861, 4.6.2)
    uint32_t host = 1;    // the router's own address is `prefix`host
};

/// Makes an ns-3 node with ns-3's stack a router at an interface, with ns-3's Radvd, which announces a prefix and an MTU of 1,400 from the first
/// second on.
inline void AddRadvd(const ns3::Ptr<ns3::Node>& node, uint32_t interface, const Announced& announced)
{
    const ns3::Ptr<ns3::Ipv6> ipv6 = node->GetObject<ns3::Ipv6>();
    const std::string own = announced.prefix + std::to_string(announced.host);
    ipv6->AddAddress(interface, ns3::Ipv6InterfaceAddress(ns3::Ipv6Address(own.c_str()), ns3::Ipv6Prefix(64)));
    ipv6->SetForwarding(interface, true);
    const ns3::Ptr<ns3::RadvdInterface> settings = ns3::Create<ns3::RadvdInterface>(interface);
    settings->AddPrefix(ns3::Create<ns3::RadvdPrefix>(ns3::Ipv6Address(announced.prefix.c_str()), 64, 604800, 2592000, announced.isOnLink));
    settings->SetLinkMtu(1400);
    const ns3::Ptr<ns3::Radvd> radvd = ns3::CreateObject<ns3::Radvd>();
    radvd->AddConfiguration(settings);
    node->AddApplication(radvd);
    radvd->SetStartTime(ns3::Seconds(1));
}

/// Sends echo requests from an ns-3 node with ns-3's IPv6, one a second, and counts what comes back.
class Pings
{
  public:
    /// Sends `times` requests from now on, from the node's global address.
    void Start(const ns3::Ptr<ns3::Node>& node, const ns3::Ipv6Address& to, int times)
    {
        m_from = GlobalOf(node);
        m_to = to;
        m_socket = ns3::Socket::CreateSocket(node, ns3::TypeId::LookupByName("ns3::Ipv6RawSocketFactory"));
        m_socket->SetAttribute("Protocol", ns3::UintegerValue(NEXT_HEADER_ICMPV6));
        m_socket->Bind(ns3::Inet6SocketAddress(m_from, 0));
        m_socket->SetRecvCallback(ns3::MakeCallback(&Pings::Receive, this));
        for (int i = 0; i < times; i++) {
            ns3::Simulator::Schedule(ns3::Seconds(i), &Pings::Send, this, i);
        }
    }
    /// Returns how many replies the node has received (RFC 4443, 4.2).
    int Replies() const
    {
        return m_replies;
    }
    /// Returns how many messages Destination Unreachable the node has received (RFC 4443, 3.1).
    int Errors() const
    {
        return m_errors;
    }

  private:
    void Send(int sequence)
    {
        const ns3::Ptr<ns3::Packet> packet = ns3::Create<ns3::Packet>(56);
        ns3::Icmpv6Echo echo(true);
        echo.SetId(m_id);
        echo.SetSeq(sequence);
        echo.CalculatePseudoHeaderChecksum(m_from, m_to, packet->GetSize() + echo.GetSerializedSize(), NEXT_HEADER_ICMPV6);
        packet->AddHeader(echo);
        m_socket->SendTo(packet, 0, ns3::Inet6SocketAddress(m_to, 0));
    }
    void Receive(ns3::Ptr<ns3::Socket> socket)
    {
        while (const ns3::Ptr<ns3::Packet> packet = socket->Recv()) {
            ns3::Ipv6Header header;
            packet->RemoveHeader(header);
            uint8_t type = 0;
            packet->CopyData(&type, 1);
            m_errors += type == ns3::Icmpv6Header::ICMPV6_ERROR_DESTINATION_UNREACHABLE;
            ns3::Icmpv6Echo echo;
            if (type == ns3::Icmpv6Header::ICMPV6_ECHO_REPLY && packet->RemoveHeader(echo) && echo.GetId() == m_id) {
                m_replies++;
            }
        }
    }

    inline static uint16_t s_last = 0;
    const uint16_t m_id = ++s_last;
    int m_replies = 0, m_errors = 0;
    ns3::Ipv6Address m_from, m_to;
    ns3::Ptr<ns3::Socket> m_socket;
};

} // namespace jondasik
