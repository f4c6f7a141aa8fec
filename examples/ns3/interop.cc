// interop [--asNs3] [--verbose] [--pcap=PREFIX]: nodes of node_application.h and nodes of ns-3's own IPv6 on one link, and a router of
// node_application.h between two links of ns-3 hosts. Each check prints 'passed: ..' or 'FAILED: ..', and the last line is 'N passed, M failed'.
#include "checks.h"
#include "node_application.h"

using namespace ns3;
using namespace jondasik;

namespace
{

Checks g_checks;
bool g_isAsNs3 = false;
bool g_isVerbose = false;
std::string g_pcap;

const char* const PREFIX = "2001:db8:1::";
constexpr int TIMES = 5; // of each ping

void PrintRecord(const char* name, const nd_out& record)
{
    std::cout << "  " << record.moment << " " << name << " " << nd_kind_text(record.kind) << " " << ToNs3(record.address) << " code " << record.code
              << "\n";
}

// An ns-3 node of node_application.h with one interface, which counts what it reports and the echo replies that it receives.
struct Host {
    Ptr<NodeApplication> application = CreateObject<NodeApplication>();
    Reports reports;
    int replies = 0;

    explicit Host(const char* name)
    {
        application->onRecord = [this, name](size_t, const nd_out& record) {
            reports.Add(record);
            if (g_isVerbose) {
                PrintRecord(name, record);
            }
        };
        application->onPacket = [this](size_t, const Ipv6Header& header, const NodeApplication::Payload& payload) {
            uint8_t type = 0;
            payload->CopyData(&type, 1);
            replies += header.GetNextHeader() == NEXT_HEADER_ICMPV6 && type == Icmpv6Header::ICMPV6_ECHO_REPLY;
        };
    }
    void Start(const Ptr<NetDevice>& device, uint64_t seed)
    {
        Settings settings;
        settings.options.seed = seed;
        settings.hearsDetectionOfNs3 = !g_isAsNs3;
        device->GetNode()->AddApplication(application);
        application->AddInterface(device, settings);
    }
    void Ping(const Ipv6Address& to)
    {
        replies = 0;
        for (int i = 0; i < TIMES; i++) {
            Simulator::Schedule(Seconds(i), &NodeApplication::Ping, application, 0, to, i);
        }
    }
    Ipv6Address Global() const
    {
        return application->Address(0, true);
    }
};

// A link with ns-3's Radvd on an ns-3 router, two hosts of ns-3, and three of node_application.h.
class LinkOfRadvd
{
  public:
    LinkOfRadvd()
    {
        m_nodes.Create(6);
        m_devices = Link(m_nodes);
        if (!g_pcap.empty()) {
            CsmaHelper().EnablePcap(g_pcap + "-radvd", m_devices.Get(ROUTER), true);
        }
        InstallOwnStack(NodeContainer(m_nodes.Get(ROUTER), m_nodes.Get(HOST), m_nodes.Get(LATE)));
        m_devices.Get(LATE)->SetAddress(m_devices.Get(SECOND)->GetAddress()); // so both try one address
        m_devices.Get(THIRD)->SetAddress(m_devices.Get(HOST)->GetAddress());
        for (uint32_t i : {ROUTER, HOST, LATE}) {
            SetUp(m_devices.Get(i));
        }
        Ipv6Of(LATE)->SetDown(1); // ns-3 crashes if the interface itself is added while the simulation runs
        AddRadvd(m_nodes.Get(ROUTER), 1, {PREFIX});
        if (!g_isAsNs3) {
            RepairRouter(m_nodes.Get(ROUTER));
        }
        m_first.Start(m_devices.Get(FIRST), 11);
        m_second.Start(m_devices.Get(SECOND), 12);
    }

    void Run()
    {
        Simulator::Schedule(Seconds(20), &LinkOfRadvd::CheckAutoconfiguration, this);
        Simulator::Schedule(Seconds(21), [this]() { m_first.Ping(GlobalOf(m_nodes.Get(HOST))); });
        Simulator::Schedule(Seconds(30), [this]() {
            g_checks.Equal(TIMES, m_first.replies, "the first host pings the host of ns-3");
            m_first.Ping(GlobalOf(m_nodes.Get(ROUTER)));
        });
        Simulator::Schedule(Seconds(40), [this]() {
            g_checks.Equal(TIMES, m_first.replies, "the first host pings the router of ns-3");
            m_first.Ping(m_second.Global());
        });
        Simulator::Schedule(Seconds(50), [this]() {
            g_checks.Equal(TIMES, m_first.replies, "the first host pings the second one");
            m_pings.Start(m_nodes.Get(HOST), m_second.Global(), TIMES);
        });
        Simulator::Schedule(Seconds(60), [this]() {
            g_checks.Equal(TIMES, m_pings.Replies(), "the host of ns-3 pings the second host");
            m_third.Start(m_devices.Get(THIRD), 13);
            Ipv6Of(LATE)->SetUp(1);
        });
        Simulator::Schedule(Seconds(70), &LinkOfRadvd::CheckDetection, this);
        Simulator::Stop(Seconds(71));
        Simulator::Run();
        m_first.reports.Print("the first host");
        m_second.reports.Print("the second host");
        m_third.reports.Print("the third host");
        Simulator::Destroy();
    }

  private:
    enum : uint32_t { ROUTER, HOST, LATE, FIRST, SECOND, THIRD };

    Ptr<Ipv6> Ipv6Of(uint32_t node) const
    {
        return m_nodes.Get(node)->GetObject<Ipv6>();
    }

    void CheckAutoconfiguration()
    {
        InterfaceNode& node = m_first.application->At(0);
        const Mac48Address mac = Mac48Address::ConvertFrom(m_devices.Get(FIRST)->GetAddress());
        g_checks.That(m_first.Global() == Ipv6Address::MakeAutoconfiguredAddress(mac, PREFIX), "the first host has an address of Radvd's prefix");
        g_checks.That(!m_second.Global().IsAny(), "the second host has one");
        g_checks.Equal(1, node.Routers().size(), "the first host has a default router");
        nd_parameters_row parameters;
        nd_parameters_of(node.Node(), NowMs(), &parameters);
        g_checks.That(parameters.mtu == 1400, "its MTU is Radvd's, 1400");
    }

    void CheckDetection()
    {
        const bool isDuplicate = m_third.reports.duplicates == 1 && m_third.Global().IsAny();
        g_checks.That(isDuplicate, "the third host tries the address of the host of ns-3: a duplicate");
        g_checks.That(m_second.reports.duplicates == 0, "the second host keeps its address");
        const Ipv6InterfaceAddress address = Ipv6Of(LATE)->GetAddress(1, 0);
        g_checks.That(address.GetState() == Ipv6InterfaceAddress::INVALID, "a host of ns-3 tries the address of the second host: invalid");
    }

    NodeContainer m_nodes;
    NetDeviceContainer m_devices;
    Host m_first{"first"}, m_second{"second"}, m_third{"third"};
    Pings m_pings;
};

// A router of node_application.h between two links, with two hosts of ns-3 on each.
class RouterBetweenLinks
{
  public:
    RouterBetweenLinks()
    {
        m_router->AddApplication(m_application);
        m_hosts.Create(4);
        InstallOwnStack(m_hosts);
        m_application->onRecord = [](size_t interface, const nd_out& record) {
            if (g_isVerbose) {
                PrintRecord(interface == 0 ? "router.0" : "router.1", record);
            }
        };
        for (uint32_t i = 0; i < 2; i++) {
            const NetDeviceContainer devices = Link({NodeContainer(m_router), m_hosts.Get(2 * i), m_hosts.Get(2 * i + 1)});
            SetUp(devices.Get(1));
            SetUp(devices.Get(2));
            m_application->AddInterface(devices.Get(0), SettingsOf(i));
        }
    }

    void Run()
    {
        Simulator::Schedule(Seconds(20), [this]() {
            for (uint32_t i = 0; i < m_hosts.GetN(); i++) {
                const bool isOfPrefix = GlobalOf(m_hosts.Get(i)).CombinePrefix(Ipv6Prefix(64)) == PREFIXES[i / 2];
                g_checks.That(isOfPrefix, "host " + std::to_string(i + 1) + " of ns-3 has an address of the router's prefix");
            }
            m_onLink.Start(m_hosts.Get(0), GlobalOf(m_hosts.Get(1)), TIMES);
            m_across.Start(m_hosts.Get(0), GlobalOf(m_hosts.Get(3)), TIMES);
        });
        Simulator::Stop(Seconds(30));
        Simulator::Run();
        g_checks.Equal(TIMES, m_onLink.Replies(), "host 1 of ns-3 pings host 2, on its link");
        g_checks.Equal(TIMES, m_across.Replies(), "host 1 of ns-3 pings host 4, through the router");
        Simulator::Destroy();
    }

  private:
    static constexpr const char* PREFIXES[] = {"2001:db8:a::", "2001:db8:b::"};

    // An interface that advertises its prefix (RFC 4861, 6.2.1), which is on its link.
    static Settings SettingsOf(uint32_t interface)
    {
        const nd_addr prefix = ToNd(PREFIXES[interface]);
        Settings settings;
        settings.options.role = ND_ROLE_ROUTER;
        settings.options.seed = 100 + interface;
        settings.hearsDetectionOfNs3 = !g_isAsNs3;
        settings.configure = [prefix](nd_node* node) {
            const nd_offer_row offer = {prefix, 64, 86400, 14400, 1, 1, {}}; // seconds
            const nd_route_row route = {prefix, {}, 64, ND_HOP_DIRECT};
            const nd_advertising advertising = {3, 10, 1800, 0, 0, 0, 64, 0, 0, 0, 0}; // every 3 to 10 s, for 1,800 s
            nd_advertise_prefix(node, NowMs(), &offer);
            nd_add_route(node, NowMs(), &route);
            nd_advertise(node, NowMs(), &advertising);
        };
        return settings;
    }

    Ptr<Node> m_router = CreateObject<Node>();
    NodeContainer m_hosts;
    Ptr<NodeApplication> m_application = CreateObject<NodeApplication>();
    Pings m_onLink, m_across;
};

} // namespace

int main(int argc, char** argv)
{
    CommandLine options(__FILE__);
    options.AddValue("asNs3", "leave out the repairs of ns-3's faults", g_isAsNs3);
    options.AddValue("verbose", "print each record of the nodes", g_isVerbose);
    options.AddValue("pcap", "write a capture of the first link into a file that begins so", g_pcap);
    options.Parse(argc, argv);
    LinkOfRadvd().Run();
    RouterBetweenLinks().Run();
    return g_checks.Result();
}
