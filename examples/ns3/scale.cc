// scale [--mode=own|under|alone] [--hosts=1000] [--links=64] [--seconds=600] [--policies=0] [--seed=1]: hosts on links, and a router on each. After
// the first 20 to 30 seconds each host sends a datagram of UDP every 5 to 15 s to another host of its link. Prints what happened, and what it took.
//   own    ns-3's stack, and Radvd on the routers
//   under  ns-3's stack over the node (node_icmpv6.h) on the hosts; the routers are as before
//   alone  the node without ns-3's stack (node_application.h), on the routers too
#include "checks.h"
#include "node_application.h"
#include "node_icmpv6.h"

#include <cstdlib>
#include <iomanip>
#include <sstream>
#include <sys/resource.h>

using namespace ns3;
using namespace jondasik;

namespace
{

struct Arguments {
    std::string mode = "under";
    uint32_t hosts = 1000, links = 64, policies = 0;
    uint64_t seed = 1;
    double seconds = 600;
};

constexpr uint16_t PORT = 9;
constexpr uint32_t DATAGRAM = 20;                                                      // bytes of data
constexpr uint32_t VALID_LIFETIME = 2592000, PREFERRED_LIFETIME = 604800;              // seconds, as Radvd's
constexpr nd_advertising ADVERTISING = {200, 600, 1800, 0, 0, 0, 64, 0, 0, 0, 0};      // with Radvd's intervals, in seconds

struct Counts {
    uint64_t sent = 0, arrived = 0, frames = 0;
    std::array<uint64_t, 5> messages = {}; // of Neighbor Discovery, from type 133 on
} g_counts;

// Counts a frame that a device begins to send.
void CountFrame(Ptr<const Packet> frame)
{
    constexpr size_t TYPE = ETHERNET_HEADER + 40;
    std::array<uint8_t, TYPE + 1> head = {};
    frame->CopyData(head.data(), head.size());
    g_counts.frames++;
    if (head[ETHERNET_HEADER + 6] == NEXT_HEADER_ICMPV6 && head[TYPE] >= 133 && head[TYPE] <= 137) {
        g_counts.messages[head[TYPE] - 133]++;
    }
}

// A link whose node 0 is the router. All addresses are formed of the prefix and of a device's address.
class LinkOfHosts
{
  public:
    LinkOfHosts(uint32_t number, uint32_t hosts) : m_prefix("fd00:" + Hexadecimal(number + 1) + "::")
    {
        m_nodes.Create(hosts + 1);
        m_devices = Link(m_nodes);
        for (uint32_t i = 0; i < m_devices.GetN(); i++) {
            m_devices.Get(i)->TraceConnectWithoutContext("PhyTxBegin", MakeCallback(&CountFrame));
            const Mac48Address mac = Mac48Address::ConvertFrom(m_devices.Get(i)->GetAddress());
            m_addresses.push_back(Ipv6Address::MakeAutoconfiguredAddress(mac, Ipv6Address(m_prefix.c_str())));
        }
    }
    virtual ~LinkOfHosts() = default;

    // Sends a datagram from one node of the link to another.
    virtual void Send(uint32_t from, uint32_t to) = 0;

    uint32_t Hosts() const
    {
        return m_nodes.GetN() - 1;
    }

  protected:
    // How a node of the link is opened, with room for the neighbours that it may have, and for little else.
    Settings SettingsOf(const Arguments& arguments, uint32_t number, uint32_t node) const
    {
        Settings settings;
        settings.options.seed = arguments.seed + 1000003ull * number + node;
        settings.options.policies = arguments.policies;
        const uint16_t neighbours = std::min(2 * m_nodes.GetN() + 2, 2048u);
        settings.options.limits = {neighbours, 2, 4, 4, 1, 1, 4, 32, 1, 2, 0, {}};
        return settings;
    }
    static std::string Hexadecimal(uint32_t number)
    {
        std::ostringstream text;
        text << std::hex << number;
        return text.str();
    }

    std::string m_prefix;
    NodeContainer m_nodes;
    NetDeviceContainer m_devices;
    std::vector<Ipv6Address> m_addresses;
};

// Hosts with ns-3's stack, over the node or with ns-3's own Neighbor Discovery.
class LinkOfStacks : public LinkOfHosts
{
  public:
    LinkOfStacks(const Arguments& arguments, uint32_t number, uint32_t hosts) : LinkOfHosts(number, hosts)
    {
        for (uint32_t i = 0; i < m_nodes.GetN(); i++) {
            if (i > 0 && arguments.mode == "under") {
                InstallInternetStack(m_nodes.Get(i), SettingsOf(arguments, number, i));
            } else {
                InstallOwnStack(m_nodes.Get(i));
            }
            SetUp(m_devices.Get(i));
            const Ptr<Socket> socket = Socket::CreateSocket(m_nodes.Get(i), UdpSocketFactory::GetTypeId());
            socket->Bind(Inet6SocketAddress(Ipv6Address::GetAny(), PORT));
            socket->SetRecvCallback(MakeCallback(&LinkOfStacks::Receive));
            m_sockets.push_back(socket);
        }
        AddRadvd(m_nodes.Get(0), 1, {m_prefix});
        RepairRouter(m_nodes.Get(0));
    }
    void Send(uint32_t from, uint32_t to) override
    {
        m_sockets[from]->SendTo(Create<Packet>(DATAGRAM), 0, Inet6SocketAddress(m_addresses[to], PORT));
    }

  private:
    static void Receive(Ptr<Socket> socket)
    {
        while (socket->Recv()) {
            g_counts.arrived++;
        }
    }

    std::vector<Ptr<Socket>> m_sockets;
};

// Hosts and a router of node_application.h.
class LinkOfApplications : public LinkOfHosts
{
  public:
    LinkOfApplications(const Arguments& arguments, uint32_t number, uint32_t hosts) : LinkOfHosts(number, hosts)
    {
        for (uint32_t i = 0; i < m_nodes.GetN(); i++) {
            const Ptr<NodeApplication> application = CreateObject<NodeApplication>();
            m_nodes.Get(i)->AddApplication(application);
            application->onPacket = [](size_t, const Ipv6Header&, const NodeApplication::Payload&) { g_counts.arrived++; };
            Settings settings = SettingsOf(arguments, number, i);
            if (i == 0) {
                settings.options.role = ND_ROLE_ROUTER;
                settings.configure = [prefix = ToNd(Ipv6Address(m_prefix.c_str()))](nd_node* node) { Advertise(node, prefix); };
            }
            application->AddInterface(m_devices.Get(i), settings);
            m_applications.push_back(application);
        }
    }
    void Send(uint32_t from, uint32_t to) override
    {
        const Ptr<Packet> datagram = Create<Packet>(DATAGRAM);
        UdpHeader udp;
        udp.SetSourcePort(PORT);
        udp.SetDestinationPort(PORT);
        udp.EnableChecksums();
        udp.InitializeChecksum(m_addresses[from], m_addresses[to], UdpL4Protocol::PROT_NUMBER);
        datagram->AddHeader(udp);
        const Ipv6Header header = NodeApplication::HeaderOf(m_addresses[from], m_addresses[to], UdpL4Protocol::PROT_NUMBER, datagram);
        m_applications[from]->Send(0, header, datagram);
    }

  private:
    static void Advertise(nd_node* node, const nd_addr& prefix)
    {
        const nd_offer_row offer = {prefix, 64, VALID_LIFETIME, PREFERRED_LIFETIME, 1, 1, {}};
        nd_advertise_prefix(node, NowMs(), &offer);
        nd_advertise(node, NowMs(), &ADVERTISING);
    }

    std::vector<Ptr<NodeApplication>> m_applications;
};

// Has each host send. All modes draw the same numbers.
class Traffic
{
  public:
    explicit Traffic(const Arguments& arguments)
    {
        m_random->SetStream(arguments.seed);
        for (uint32_t i = 0; i < arguments.links; i++) {
            const uint32_t hosts = arguments.hosts / arguments.links + (i < arguments.hosts % arguments.links);
            if (arguments.mode == "alone") {
                m_links.push_back(std::make_unique<LinkOfApplications>(arguments, i, hosts));
            } else {
                m_links.push_back(std::make_unique<LinkOfStacks>(arguments, i, hosts));
            }
            for (uint32_t host = 1; host <= hosts; host++) {
                Simulator::Schedule(Seconds(m_random->GetValue(20, 30)), &Traffic::Send, this, m_links.back().get(), host);
            }
        }
    }

  private:
    void Send(LinkOfHosts* link, uint32_t host)
    {
        uint32_t other = m_random->GetInteger(1, link->Hosts() - 1);
        other += other >= host;
        g_counts.sent++;
        link->Send(host, other);
        Simulator::Schedule(Seconds(m_random->GetValue(5, 15)), &Traffic::Send, this, link, host);
    }

    Ptr<UniformRandomVariable> m_random = CreateObject<UniformRandomVariable>();
    std::vector<std::unique_ptr<LinkOfHosts>> m_links;
};

rusage Usage()
{
    rusage usage;
    getrusage(RUSAGE_SELF, &usage);
    return usage;
}

double UserSeconds()
{
    const timeval user = Usage().ru_utime;
    return user.tv_sec + user.tv_usec / 1e6;
}

// Prints what happened. `seconds` is the user time of the simulation, without that of setting it up.
void Print(const Arguments& arguments, double seconds)
{
    const auto& [solicitations, advertisements, asked, answered, redirects] = g_counts.messages;
    const uint64_t events = Simulator::GetEventCount();
    std::cout << std::fixed << arguments.mode << ": " << arguments.hosts << " hosts on " << arguments.links << " links, " << std::setprecision(0)
              << arguments.seconds << " s, policies " << arguments.policies << "\n";
    std::cout << "datagrams sent " << g_counts.sent << ", arrived " << g_counts.arrived << "\n";
    std::cout << "frames " << g_counts.frames << ": RS " << solicitations << ", RA " << advertisements << ", NS " << asked << ", NA " << answered
              << ", Redirects " << redirects << "; NS for each datagram " << std::setprecision(2) << double(asked) / g_counts.sent << "\n";
    std::cout << "events " << events << ", user seconds " << std::setprecision(1) << seconds << ", events a second " << std::setprecision(0)
              << events / seconds << ", resident " << double(Usage().ru_maxrss) / (arguments.hosts + arguments.links) << " KB a node" << std::endl;
}

} // namespace

int main(int argc, char** argv)
{
    Arguments arguments;
    CommandLine options(__FILE__);
    options.AddValue("mode", "own, under or alone", arguments.mode);
    options.AddValue("hosts", "in all, at least two on each link", arguments.hosts);
    options.AddValue("links", "with a router on each", arguments.links);
    options.AddValue("seconds", "of simulated time", arguments.seconds);
    options.AddValue("policies", "a sum of enum nd_policy, for the modes under and alone", arguments.policies);
    options.AddValue("seed", "of the traffic, and of the nodes", arguments.seed);
    options.Parse(argc, argv);
    NS_ABORT_MSG_IF(arguments.hosts < 2 * arguments.links, "at least two hosts on each link");
    Traffic traffic(arguments);
    const double begun = UserSeconds();
    Simulator::Stop(Seconds(arguments.seconds));
    Simulator::Run();
    Print(arguments, UserSeconds() - begun);
    std::_Exit(0); // Simulator::Destroy would take seconds
}
