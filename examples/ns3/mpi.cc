// mpi [--hosts=1000] [--links=64] [--seconds=120]: hosts of node_application.h on links, in one process or, by `mpirun -n 2`, in two, each with half
// of the links. The routers of a half are one ns-3 node, and these two are joined by a point-to-point link of 2 ms, which ns-3's MPI carries. One
// datagram of ten goes to a host of any link. Prints a hash of what the nodes of the hosts reported, but for frames, which is the same for one rank
// and for two.
#include "node_application.h"
#include "ns3/core-module.h"
#include "ns3/csma-module.h"
#include "ns3/mpi-interface.h"
#include "ns3/network-module.h"
#include "ns3/point-to-point-helper.h"
#include "ns3/udp-header.h"

#include <cstdlib>
#include <iostream>
#include <mpi.h>
#include <random>
#include <sstream>
#include <sys/resource.h>

using namespace ns3;
using namespace jondasik;

namespace
{

struct Arguments {
    uint32_t hosts = 1000, links = 64;
    double seconds = 120;
};

constexpr uint16_t PORT = 9;
constexpr uint8_t NEXT_HEADER_UDP = 17;
constexpr uint32_t DATAGRAM = 20;                                                 // bytes of data
constexpr nd_advertising ADVERTISING = {200, 600, 1800, 0, 0, 0, 64, 0, 0, 0, 0}; // intervals and lifetime in seconds

struct Counts {
    uint64_t sent, arrived, across, events, hash;
};

// A host, or in a rank that does not have it only its address.
struct Host {
    Ptr<NodeApplication> application;
    Ipv6Address address;
    std::minstd_rand random;
    uint64_t hash = 0xcbf29ce484222325; // FNV-1a, of 64-bit words
};

// The links, in two halves, each with the routers of its links in one ns-3 node.
class Halves
{
  public:
    explicit Halves(const Arguments& arguments)
    {
        for (uint32_t half = 0; half < 2; half++) {
            m_routers.Add(CreateObject<Node>(RankOf(half)));
            m_forwarders[half] = CreateObject<NodeApplication>();
            m_routers.Get(half)->AddApplication(m_forwarders[half]);
        }
        Join();
        m_hosts.resize(arguments.links);
        for (uint32_t link = 0; link < arguments.links; link++) {
            AddLink(link, link * 2 / arguments.links, arguments.hosts / arguments.links);
        }
    }

    // Returns the counts of this rank; the hash is the sum of those of its hosts.
    Counts Counted() const
    {
        Counts counts = m_counts;
        counts.events = Simulator::GetEventCount();
        for (const std::vector<Host>& link : m_hosts) {
            for (const Host& host : link) {
                counts.hash += host.application ? host.hash : 0;
            }
        }
        return counts;
    }

  private:
    static uint32_t RankOf(uint32_t half)
    {
        return half % MpiInterface::GetSize();
    }

    // Joins the two routers. What one has no next hop for it sends to the other, unless it is from there.
    void Join()
    {
        PointToPointHelper helper;
        helper.SetDeviceAttribute("DataRate", StringValue("10Gbps"));
        helper.SetChannelAttribute("Delay", StringValue("2ms"));
        const NetDeviceContainer devices = helper.Install(m_routers);
        for (uint32_t half = 0; half < 2; half++) {
            const Ptr<NetDevice> device = devices.Get(half);
            m_forwarders[half]->onNoRoute = [this, device](const Ipv6Header& header, const NodeApplication::Payload& payload) {
                const Ptr<Packet> packet = payload->Copy();
                packet->AddHeader(header);
                m_counts.across++;
                device->Send(packet, device->GetBroadcast(), ETHERNET_TYPE_IPV6);
            };
            m_routers.Get(half)->RegisterProtocolHandler(MakeCallback(&Halves::ReceiveAcross, this), ETHERNET_TYPE_IPV6, device);
        }
    }

    void ReceiveAcross(Ptr<NetDevice> device, Ptr<const Packet> received, uint16_t, const Address&, const Address&, NetDevice::PacketType)
    {
        const Ptr<Packet> payload = received->Copy();
        Ipv6Header header;
        payload->RemoveHeader(header);
        m_forwarders[device->GetNode() == m_routers.Get(1)]->Forward(header, payload);
    }

    // Makes the nodes and devices of a link, as ns-3 asks of each rank, and opens nodes of nd.h only where it is this rank's.
    void AddLink(uint32_t link, uint32_t half, uint32_t hosts)
    {
        NodeContainer nodes(m_routers.Get(half));
        nodes.Create(hosts, RankOf(half));
        CsmaHelper csma;
        csma.SetChannelAttribute("DataRate", StringValue("100Mbps"));
        csma.SetChannelAttribute("Delay", StringValue("2us"));
        const NetDeviceContainer devices = csma.Install(nodes);
        std::ostringstream text;
        text << "fd00:" << std::hex << link + 1 << "::";
        const Ipv6Address prefix(text.str().c_str());
        const bool isOurs = RankOf(half) == MpiInterface::GetSystemId();
        if (isOurs) {
            m_forwarders[half]->AddInterface(devices.Get(0), RouterOf(link, prefix, hosts));
        }
        m_hosts[link].resize(hosts);
        for (uint32_t i = 0; i < hosts; i++) {
            const Mac48Address mac = Mac48Address::ConvertFrom(devices.Get(i + 1)->GetAddress());
            m_hosts[link][i].address = Ipv6Address::MakeAutoconfiguredAddress(mac, prefix);
            if (isOurs) {
                Start(link, i, devices.Get(i + 1));
            }
        }
    }

    static Settings SettingsOf(uint64_t seed, uint32_t hosts)
    {
        Settings settings;
        settings.options.seed = seed;
        settings.options.limits = {uint16_t(std::min(2 * hosts + 4, 2048u)), 2, 4, 4, 1, 1, 4, 32, 1, 2, 0, {}};
        return settings;
    }

    static Settings RouterOf(uint32_t link, const Ipv6Address& prefix, uint32_t hosts)
    {
        Settings settings = SettingsOf(1000003ull * link, hosts);
        settings.options.role = ND_ROLE_ROUTER;
        settings.configure = [prefix = ToNd(prefix)](nd_node* node) {
            const nd_offer_row offer = {prefix, 64, 2592000, 604800, 1, 1, {}}; // lifetimes in seconds
            const nd_route_row route = {prefix, {}, 64, ND_HOP_DIRECT};
            nd_advertise_prefix(node, NowMs(), &offer);
            nd_add_route(node, NowMs(), &route);
            nd_advertise(node, NowMs(), &ADVERTISING);
        };
        return settings;
    }

    void Start(uint32_t link, uint32_t index, const Ptr<NetDevice>& device)
    {
        Host& host = m_hosts[link][index];
        host.random.seed(link * 65537 + index + 1);
        host.application = CreateObject<NodeApplication>();
        device->GetNode()->AddApplication(host.application);
        host.application->onPacket = [this](size_t, const Ipv6Header&, const NodeApplication::Payload&) { m_counts.arrived++; };
        host.application->onRecord = [&host](size_t, const nd_out& record) {
            for (const uint64_t word : {record.moment, uint64_t(record.kind), uint64_t(record.code), uint64_t(record.address.bytes[15])}) {
                host.hash = (host.hash ^ word) * 0x100000001b3;
            }
        };
        host.application->AddInterface(device, SettingsOf(1000003ull * link + index + 1, m_hosts[link].size()));
        Simulator::Schedule(MilliSeconds(20000 + host.random() % 10000), &Halves::Send, this, link, index);
    }

    // Sends a datagram, of ten one to a host of any link, the others to one of the host's own.
    void Send(uint32_t link, uint32_t index)
    {
        Host& host = m_hosts[link][index];
        const uint32_t other = host.random() % 10 == 0 ? host.random() % m_hosts.size() : link;
        const Host& to = m_hosts[other][host.random() % m_hosts[other].size()];
        if (&to != &host) {
            const Ptr<Packet> datagram = Create<Packet>(DATAGRAM);
            UdpHeader udp;
            udp.SetSourcePort(PORT);
            udp.SetDestinationPort(PORT);
            udp.EnableChecksums();
            udp.InitializeChecksum(host.address, to.address, NEXT_HEADER_UDP);
            datagram->AddHeader(udp);
            m_counts.sent++;
            host.application->Send(0, NodeApplication::HeaderOf(host.address, to.address, NEXT_HEADER_UDP, datagram), datagram);
        }
        Simulator::Schedule(MilliSeconds(5000 + host.random() % 10000), &Halves::Send, this, link, index);
    }

    NodeContainer m_routers;
    std::array<Ptr<NodeApplication>, 2> m_forwarders;
    std::vector<std::vector<Host>> m_hosts; // by link
    Counts m_counts = {};
};

// Prints the counts of this rank, and as rank 0 those of all.
void Print(const Counts& own, const Counts& all)
{
    rusage usage;
    getrusage(RUSAGE_SELF, &usage);
    std::ostringstream text; // one write, so that the lines of two ranks are not mixed
    text << "rank " << MpiInterface::GetSystemId() << " of " << MpiInterface::GetSize() << ": events " << own.events << ", user seconds "
         << usage.ru_utime.tv_sec + usage.ru_utime.tv_usec / 1e6 << ", resident " << usage.ru_maxrss << " KB\n";
    if (MpiInterface::GetSystemId() == 0) {
        text << "all: events " << all.events << ", datagrams sent " << all.sent << ", arrived " << all.arrived << ", across " << all.across
             << ", hash " << std::hex << all.hash << "\n";
    }
    std::cout << text.str() << std::flush;
}

} // namespace

int main(int argc, char** argv)
{
    GlobalValue::Bind("SimulatorImplementationType", StringValue("ns3::DistributedSimulatorImpl"));
    MpiInterface::Enable(&argc, &argv);
    Arguments arguments;
    CommandLine options(__FILE__);
    options.AddValue("hosts", "in all", arguments.hosts);
    options.AddValue("links", "at least two", arguments.links);
    options.AddValue("seconds", "of simulated time", arguments.seconds);
    options.Parse(argc, argv);
    NS_ABORT_MSG_IF(MpiInterface::GetSize() > 2 || arguments.links < 2 || arguments.hosts < arguments.links, "one rank or two, two links or more");
    const Halves halves(arguments);
    Simulator::Stop(Seconds(arguments.seconds));
    Simulator::Run();
    const Counts own = halves.Counted();
    Counts all;
    MPI_Allreduce(&own, &all, sizeof all / sizeof(uint64_t), MPI_UINT64_T, MPI_SUM, MPI_COMM_WORLD);
    Print(own, all);
    MpiInterface::Disable();
    std::_Exit(0); // Simulator::Destroy would take seconds
}
