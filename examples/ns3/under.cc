// under [--asNs3] [--pcap=PREFIX]: ns-3's own IPv6, UDP, TCP and sockets over the node (node_icmpv6.h), on links with nodes of ns-3's own Neighbor
// Discovery. Each check prints 'passed: ..' or 'FAILED: ..', and the last line is 'N passed, M failed'.
#include "checks.h"
#include "node_icmpv6.h"
#include "ns3/applications-module.h"

using namespace ns3;
using namespace jondasik;

namespace
{

Checks g_checks;
bool g_isAsNs3 = false;
std::string g_pcap;

constexpr int TIMES = 5;            // of each ping
constexpr uint64_t MEGABYTE = 1e6;  // that each connection of TCP sends
constexpr uint16_t SINK_PORT = 80, DATAGRAM_PORT = 9;

void At(double seconds, std::function<void()> action)
{
    Simulator::Schedule(Seconds(seconds), std::move(action));
}

Settings HostSettings(uint64_t seed)
{
    Settings settings;
    settings.options.seed = seed;
    settings.hearsDetectionOfNs3 = !g_isAsNs3;
    return settings;
}

// Gives a node the stack with the node of nd.h, of which `reports` counts the reports.
Ptr<NodeIcmpv6> InstallCounted(const Ptr<Node>& node, const Settings& settings, Reports& reports)
{
    const Ptr<NodeIcmpv6> icmpv6 = InstallInternetStack(node, settings);
    icmpv6->onRecord = [&reports](Ptr<NetDevice>, const nd_out& record) { reports.Add(record); };
    return icmpv6;
}

void SetUpAll(const NetDeviceContainer& devices)
{
    for (uint32_t i = 0; i < devices.GetN(); i++) {
        SetUp(devices.Get(i));
    }
}

// Returns true if an address of an interface, from 1 on, is in a state.
bool IsIn(Ipv6InterfaceAddress::State_e state, const Ptr<Ipv6>& ipv6, uint32_t interface, const Ipv6Address& address)
{
    for (uint32_t i = 0; i < ipv6->GetNAddresses(interface); i++) {
        if (ipv6->GetAddress(interface, i).GetAddress() == address) {
            return ipv6->GetAddress(interface, i).GetState() == state;
        }
    }
    return false;
}

void RepairUnlessAsNs3(const Ptr<Node>& router)
{
    if (!g_isAsNs3) {
        RepairRouter(router);
    }
}

// A connection of TCP that sends a megabyte.
class Transfer
{
  public:
    // Listens at the receiver from the start of the simulation on.
    explicit Transfer(const Ptr<Node>& receiver) : m_receiver(receiver)
    {
        PacketSinkHelper sink("ns3::TcpSocketFactory", Inet6SocketAddress(Ipv6Address::GetAny(), SINK_PORT));
        m_sink = DynamicCast<PacketSink>(sink.Install(receiver).Get(0));
    }
    void Start(const Ptr<Node>& sender)
    {
        BulkSendHelper bulk("ns3::TcpSocketFactory", Inet6SocketAddress(GlobalOf(m_receiver), SINK_PORT));
        bulk.SetAttribute("MaxBytes", UintegerValue(MEGABYTE));
        bulk.Install(sender).Start(Seconds(0));
        m_before = m_sink->GetTotalRx();
    }
    uint64_t Bytes() const
    {
        return m_sink->GetTotalRx() - m_before;
    }

  private:
    Ptr<Node> m_receiver;
    Ptr<PacketSink> m_sink;
    uint64_t m_before = 0;
};

// Datagrams of UDP from one node to another, one a second.
class Datagrams
{
  public:
    void Start(const Ptr<Node>& sender, const Ptr<Node>& receiver, uint16_t port)
    {
        m_receiving = Socket::CreateSocket(receiver, UdpSocketFactory::GetTypeId());
        m_receiving->Bind(Inet6SocketAddress(Ipv6Address::GetAny(), port));
        m_receiving->SetRecvCallback(MakeCallback(&Datagrams::Receive, this));
        m_sending = Socket::CreateSocket(sender, UdpSocketFactory::GetTypeId());
        m_to = Inet6SocketAddress(GlobalOf(receiver), port);
        Send();
    }
    // Returns how many have arrived since it was called last.
    uint64_t Arrived()
    {
        return std::exchange(m_arrived, 0);
    }

  private:
    void Send()
    {
        m_sending->SendTo(Create<Packet>(20), 0, m_to);
        Simulator::Schedule(Seconds(1), &Datagrams::Send, this);
    }
    void Receive(Ptr<Socket> socket)
    {
        while (socket->Recv()) {
            m_arrived++;
        }
    }

    Ptr<Socket> m_receiving, m_sending;
    Address m_to;
    uint64_t m_arrived = 0;
};

// A link with a router of ns-3, a host of ns-3, and two hosts over the node; and a second link with a host of ns-3.
class HostsUnderNs3
{
  public:
    HostsUnderNs3()
    {
        m_nodes.Create(5);
        const NetDeviceContainer devices = Link({m_nodes.Get(ROUTER), m_nodes.Get(HOST), m_nodes.Get(FIRST), m_nodes.Get(SECOND)});
        const NetDeviceContainer behind = Link({m_nodes.Get(ROUTER), m_nodes.Get(BEHIND)});
        if (!g_pcap.empty()) {
            CsmaHelper().EnablePcap(g_pcap, devices.Get(0), true);
        }
        InstallOwnStack({m_nodes.Get(ROUTER), m_nodes.Get(HOST), m_nodes.Get(BEHIND)});
        InstallCounted(m_nodes.Get(FIRST), HostSettings(7), m_firstReports);
        InstallCounted(m_nodes.Get(SECOND), HostSettings(8), m_secondReports);
        SetUpAll(devices);
        SetUpAll(behind);
        AddRadvd(m_nodes.Get(ROUTER), 1, {"fd00:1::"});
        AddRadvd(m_nodes.Get(ROUTER), 2, {"fd00:2::"});
        RepairUnlessAsNs3(m_nodes.Get(ROUTER));
        for (uint32_t i : {HOST, FIRST, SECOND, BEHIND}) {
            m_transfers.emplace(i, m_nodes.Get(i));
        }
    }

    void Run()
    {
        At(20, [this]() {
            g_checks.That(HasPrefix(FIRST) && HasPrefix(SECOND), "both hosts have an address of Radvd's prefix");
            g_checks.Equal(1400, m_nodes.Get(FIRST)->GetDevice(0)->GetMtu(), "the MTU is Radvd's");
        });
        if (!g_isAsNs3) { // without an address ns-3's TCP has none to connect to
            Transfers();
            Addresses();
            LinkDown();
        }
        Simulator::Stop(Seconds(130));
        Simulator::Run();
        m_firstReports.Print("the first host");
        m_secondReports.Print("the second host");
        Simulator::Destroy();
    }

  private:
    enum : uint32_t { ROUTER, HOST, FIRST, SECOND, BEHIND };

    bool HasPrefix(uint32_t node) const
    {
        return GlobalOf(m_nodes.Get(node)).CombinePrefix(Ipv6Prefix(64)) == "fd00:1::";
    }

    void Transfers()
    {
        const auto transfer = [this](double seconds, uint32_t from, uint32_t to, const std::string& what) {
            At(seconds, [this, from, to]() { m_transfers.at(to).Start(m_nodes.Get(from)); });
            At(seconds + 5, [this, to, what]() { g_checks.Equal(MEGABYTE, m_transfers.at(to).Bytes(), "TCP " + what + ", bytes"); });
        };
        transfer(21, FIRST, HOST, "from the first host to the host of ns-3");
        transfer(27, HOST, SECOND, "from the host of ns-3 to the second host");
        transfer(33, FIRST, SECOND, "from the first host to the second one");
        transfer(39, FIRST, BEHIND, "from the first host through the router of ns-3");
        transfer(45, BEHIND, SECOND, "through the router of ns-3 to the second host");
    }

    void Addresses()
    {
        At(55, [this]() {
            Ipv6Of(FIRST)->AddAddress(1, Ipv6InterfaceAddress(Ipv6Address(BY_HAND), Ipv6Prefix(64)));
            Ipv6Of(SECOND)->AddAddress(1, Ipv6InterfaceAddress(GlobalOf(m_nodes.Get(HOST)), Ipv6Prefix(64)));
        });
        At(60, [this]() {
            const Ipv6Address taken = GlobalOf(m_nodes.Get(HOST));
            g_checks.That(IsIn(Ipv6InterfaceAddress::PREFERRED, Ipv6Of(FIRST), 1, BY_HAND), "an address that is given by hand is assigned");
            g_checks.That(IsIn(Ipv6InterfaceAddress::INVALID, Ipv6Of(SECOND), 1, taken), "one that the host of ns-3 has is a duplicate");
            Ipv6Of(SECOND)->RemoveAddress(1, taken);
            m_pings.Start(m_nodes.Get(HOST), BY_HAND, TIMES);
            m_toNobody.Start(m_nodes.Get(FIRST), "fd00:1::dead", 1);
        });
        At(70, [this]() {
            g_checks.Equal(TIMES, m_pings.Replies(), "the host of ns-3 pings the address that was given by hand");
            g_checks.Equal(1, m_toNobody.Errors(), "a ping to nobody: Destination Unreachable");
            Ipv6Of(FIRST)->RemoveAddress(1, Ipv6Address(BY_HAND));
            m_removed.Start(m_nodes.Get(HOST), BY_HAND, TIMES);
        });
        At(80, [this]() { g_checks.That(m_removed.Replies() == 0, "once that is removed, it is not answered"); });
    }

    void LinkDown()
    {
        At(85, [this]() { Ipv6Of(FIRST)->SetDown(1); });
        At(87, [this]() { Ipv6Of(FIRST)->SetUp(1); });
        At(120, [this]() {
            g_checks.That(HasPrefix(FIRST), "the interface was down, and is up: the first host has an address again");
            m_again.Start(m_nodes.Get(BEHIND), GlobalOf(m_nodes.Get(FIRST)), TIMES);
        });
        At(129, [this]() { g_checks.Equal(TIMES, m_again.Replies(), "and is pinged through the router"); });
    }

    Ptr<Ipv6> Ipv6Of(uint32_t node) const
    {
        return m_nodes.Get(node)->GetObject<Ipv6>();
    }
    static constexpr const char* BY_HAND = "fd00:1::77";
    NodeContainer m_nodes;
    Reports m_firstReports, m_secondReports;
    std::map<uint32_t, Transfer> m_transfers; // by the receiver
    Pings m_pings, m_toNobody, m_removed, m_again;
};

// Two routers of ns-3 between two links. A host over the node sends through the one that then falls silent, and so does a host of ns-3.
class TwoRouters
{
  public:
    TwoRouters()
    {
        m_nodes.Create(5);
        const NetDeviceContainer devices = Link({m_nodes.Get(0), m_nodes.Get(1), m_nodes.Get(HOST), m_nodes.Get(FIRST)});
        const NetDeviceContainer behind = Link({m_nodes.Get(0), m_nodes.Get(1), m_nodes.Get(BEHIND)});
        InstallOwnStack({m_nodes.Get(0), m_nodes.Get(1), m_nodes.Get(HOST), m_nodes.Get(BEHIND)});
        m_icmpv6 = InstallInternetStack(m_nodes.Get(FIRST), HostSettings(9));
        SetUpAll(devices);
        SetUpAll(behind);
        for (uint32_t router : {0, 1}) {
            AddRadvd(m_nodes.Get(router), 1, {"fd00:1::", true, router + 1});
            AddRadvd(m_nodes.Get(router), 2, {"fd00:2::", true, router + 1});
            RepairUnlessAsNs3(m_nodes.Get(router));
        }
    }

    void Run()
    {
        At(20, [this]() {
            g_checks.Equal(2, Node().Routers().size(), "a host has two default routers");
            m_ours.Start(m_nodes.Get(FIRST), m_nodes.Get(BEHIND), DATAGRAM_PORT);
            m_ofNs3.Start(m_nodes.Get(HOST), m_nodes.Get(BEHIND), DATAGRAM_PORT + 1);
        });
        At(40.5, [this]() {
            g_checks.Equal(21, m_ours.Arrived(), "its datagrams pass through one of them");
            std::cout << "  of a host of ns-3: " << m_ofNs3.Arrived() << " of 21\n";
            Silence();
        });
        At(100.5, [this]() {
            std::cout << "  in the minute after that one fell silent: " << m_ours.Arrived() << " of 60, of the host of ns-3 " << m_ofNs3.Arrived()
                      << "\n";
        });
        At(120.5, [this]() {
            g_checks.Equal(20, m_ours.Arrived(), "then they pass through the other one");
            std::cout << "  of the host of ns-3: " << m_ofNs3.Arrived() << " of 20\n";
        });
        Simulator::Stop(Seconds(121));
        Simulator::Run();
        Simulator::Destroy();
    }

  private:
    enum : uint32_t { HOST = 2, FIRST, BEHIND };

    InterfaceNode& Node()
    {
        return *m_icmpv6->On(m_nodes.Get(FIRST)->GetDevice(0));
    }

    // Sets the interface down of the router that the host uses.
    void Silence()
    {
        const nd_addr to = ToNd(GlobalOf(m_nodes.Get(BEHIND)));
        nd_next_hop_row hop;
        nd_next_hop(Node().Node(), NowMs(), &to, &hop);
        for (uint32_t router : {0, 1}) {
            const Ptr<Ipv6> ipv6 = m_nodes.Get(router)->GetObject<Ipv6>();
            if (ipv6->GetAddress(1, 0).GetAddress() == ToNs3(hop.address)) {
                ipv6->SetDown(1);
            }
        }
    }

    NodeContainer m_nodes;
    Ptr<NodeIcmpv6> m_icmpv6;
    Datagrams m_ours, m_ofNs3;
};

// A prefix of which the hosts do not know that it is on the link: the router of ns-3 redirects them to each other.
class RedirectOfNs3
{
  public:
    RedirectOfNs3()
    {
        m_nodes.Create(3);
        const NetDeviceContainer devices = Link(m_nodes);
        InstallOwnStack(m_nodes.Get(ROUTER));
        m_icmpv6 = InstallCounted(m_nodes.Get(FIRST), HostSettings(10), m_reports);
        InstallInternetStack(m_nodes.Get(SECOND), HostSettings(11));
        SetUpAll(devices);
        AddRadvd(m_nodes.Get(ROUTER), 1, {"fd00:1::", false});
        m_nodes.Get(ROUTER)->GetObject<Ipv6>()->SetAttribute("DefaultTtl", UintegerValue(255)); // a host without an address has nothing to send
        RepairUnlessAsNs3(m_nodes.Get(ROUTER));
    }

    void Run()
    {
        At(20, [this]() { m_pings.Start(m_nodes.Get(FIRST), GlobalOf(m_nodes.Get(SECOND)), TIMES); });
        At(29, [this]() {
            size_t count = 0;
            nd_redirect_row row;
            nd_redirects(m_icmpv6->On(m_nodes.Get(FIRST)->GetDevice(0))->Node(), NowMs(), &row, 1, &count);
            g_checks.Equal(TIMES, m_pings.Replies(), "a host pings another one, through the router of ns-3 at first");
            g_checks.Equal(1, count, "it takes the router's Redirect");
        });
        Simulator::Stop(Seconds(30));
        Simulator::Run();
        m_reports.Print("the host");
        Simulator::Destroy();
    }

  private:
    enum : uint32_t { ROUTER, FIRST, SECOND };

    NodeContainer m_nodes;
    Ptr<NodeIcmpv6> m_icmpv6;
    Reports m_reports;
    Pings m_pings;
};

// A router over the node, whose packets ns-3 forwards, between a link with a host of ns-3 and one with a host over the node.
class RouterUnderNs3
{
  public:
    RouterUnderNs3()
    {
        m_nodes.Create(3);
        InstallOwnStack(m_nodes.Get(HOST));
        const Ptr<NodeIcmpv6> router = InstallInternetStack(m_nodes.Get(ROUTER), HostSettings(20));
        InstallInternetStack(m_nodes.Get(FIRST), HostSettings(21));
        for (uint32_t i : {HOST, FIRST}) {
            const NetDeviceContainer devices = Link({m_nodes.Get(ROUTER), m_nodes.Get(i)});
            const std::string prefix = "fd00:" + std::to_string(i) + "::";
            router->SetSettings(SettingsOf(prefix, 22 + i));
            Ipv6AddressHelper(Ipv6Address(prefix.c_str()), Ipv6Prefix(64)).Assign(devices.Get(0));
            SetUp(devices.Get(1));
            m_nodes.Get(ROUTER)->GetObject<Ipv6>()->SetForwarding(i, true);
            m_transfers.emplace(i, m_nodes.Get(i));
        }
    }

    void Run()
    {
        At(20, [this]() {
            g_checks.That(HasAssigned(HOST) && HasAssigned(FIRST), "a router over the node has the addresses that ns-3's helper gives it");
            m_transfers.at(HOST).Start(m_nodes.Get(FIRST));
        });
        At(25, [this]() {
            g_checks.Equal(MEGABYTE, m_transfers.at(HOST).Bytes(), "TCP from a host through it to a host of ns-3, bytes");
            m_transfers.at(FIRST).Start(m_nodes.Get(HOST));
        });
        At(30, [this]() { g_checks.Equal(MEGABYTE, m_transfers.at(FIRST).Bytes(), "and back, bytes"); });
        Simulator::Stop(Seconds(31));
        Simulator::Run();
        Simulator::Destroy();
    }

  private:
    enum : uint32_t { ROUTER, HOST, FIRST };

    // Returns true if the router's global address at an interface, by its index, is assigned.
    bool HasAssigned(uint32_t interface) const
    {
        const Ptr<Ipv6> ipv6 = m_nodes.Get(ROUTER)->GetObject<Ipv6>();
        return IsIn(Ipv6InterfaceAddress::PREFERRED, ipv6, interface, GlobalOf(m_nodes.Get(ROUTER), interface));
    }

    static Settings SettingsOf(const std::string& prefix, uint64_t seed)
    {
        Settings settings = RouterSettings(seed, [prefix](nd_node* node) {
            const nd_offer_row offer = {ToNd(Ipv6Address(prefix.c_str())), 64, 86400, 14400, 1, 1, {}}; // seconds
            const nd_advertising advertising = {3, 10, 1800, 0, 0, 0, 64, 0, 0, 0, 0};                  // every 3 to 10 s, for 1,800 s
            nd_advertise_prefix(node, NowMs(), &offer);
            nd_advertise(node, NowMs(), &advertising);
        });
        settings.hearsDetectionOfNs3 = !g_isAsNs3;
        return settings;
    }

    NodeContainer m_nodes;
    std::map<uint32_t, Transfer> m_transfers; // by the receiver
};

} // namespace

int main(int argc, char** argv)
{
    CommandLine options(__FILE__);
    options.AddValue("asNs3", "leave out the repairs of ns-3's faults", g_isAsNs3);
    options.AddValue("pcap", "write a capture of the first link into a file that begins so", g_pcap);
    options.Parse(argc, argv);
    HostsUnderNs3().Run();
    if (!g_isAsNs3) {
        TwoRouters().Run();
    }
    RedirectOfNs3().Run();
    RouterUnderNs3().Run();
    return g_checks.Result();
}
