"""Names of commands, profiles and clusters: one vocabulary for all pages and listings.

The NWK and APS commands are those of the Zigbee specification (revision 22), as docs/FORMATS.md numbers them. Clusters,
profiles and general commands of the ZCL are named as the tables of Wireshark 4.0 name them (`tshark -G values`), and
the requests of the ZDP as chapter 2.4 of the specification does. Only headers are named; contents are not decoded."""
from typing import Optional

NWK_COMMANDS = {
    1: 'Route Request',
    2: 'Route Reply',
    3: 'Network Status',
    4: 'Leave',
    5: 'Route Record',
    6: 'Rejoin Request',
    7: 'Rejoin Response',
    8: 'Link Status',
    9: 'Network Report',
    10: 'Network Update',
    11: 'End Device Timeout Request',
    12: 'End Device Timeout Response',
    13: 'Link Power Delta',
    14: 'Commissioning Request',
    15: 'Commissioning Response',
}
APS_COMMANDS = {
    5: 'Transport-Key',
    6: 'Update-Device',
    7: 'Remove-Device',
    8: 'Request-Key',
    9: 'Switch-Key',
    0x0E: 'Tunnel',
    0x0F: 'Verify-Key',
    0x10: 'Confirm-Key',
}
KEY_TYPES = {1: 'network key', 3: 'application key', 4: 'link key'}
PROFILES = {
    0x0000: 'ZDP',
    0x0104: 'Home Automation',
    0x0105: 'Commercial Building Automation',
    0x0107: 'Telecom Automation',
    0x0108: 'Health Care',
    0x0109: 'Smart Energy',
    0xA1E0: 'Green Power',
    0xC05E: 'Light Link',
}
CLUSTERS = {
    0x0000: 'Basic',
    0x0001: 'Power Configuration',
    0x0002: 'Device Temperature Configuration',
    0x0003: 'Identify',
    0x0004: 'Groups',
    0x0005: 'Scenes',
    0x0006: 'On/Off',
    0x0007: 'On/Off Switch Configuration',
    0x0008: 'Level Control',
    0x0009: 'Alarms',
    0x000A: 'Time',
    0x000B: 'RSSI Location',
    0x000C: 'Analog Input (Basic)',
    0x000D: 'Analog Output (Basic)',
    0x000E: 'Analog Value (Basic)',
    0x000F: 'Binary Input (Basic)',
    0x0010: 'Binary Output (Basic)',
    0x0011: 'Binary Value (Basic)',
    0x0012: 'Multistate Input (Basic)',
    0x0013: 'Multistate Output (Basic)',
    0x0014: 'Multistate Value (Basic)',
    0x0015: 'Commissioning',
    0x0016: 'Partition',
    0x0019: 'OTA Upgrade',
    0x001A: 'Power Profile',
    0x001B: 'Appliance Control',
    0x0020: 'Poll Control',
    0x0021: 'Green Power',
    0x0025: 'Keep-Alive',
    0x0100: 'Shade Configuration',
    0x0101: 'Door Lock',
    0x0200: 'Pump Configuration Control',
    0x0201: 'Thermostat',
    0x0202: 'Fan Control',
    0x0203: 'Dehumidification Control',
    0x0204: 'Thermostat User Interface Configuration',
    0x0300: 'Color Control',
    0x0301: 'Ballast Configuration',
    0x0400: 'Illuminance Measurement',
    0x0401: 'Illuminance Level Sensing',
    0x0402: 'Temperature Measurement',
    0x0403: 'Pressure Measurement',
    0x0404: 'Flow Measurement',
    0x0405: 'Relative Humidity Measurement',
    0x0406: 'Occupancy Sensing',
    0x0500: 'Intruder Alarm System Zone',
    0x0501: 'Intruder Alarm System ACE',
    0x0502: 'Intruder Alarm System WD',
    0x0600: 'BACnet Generic Tunnel',
    0x0601: 'BACnet Protocol Tunnel',
    0x0602: 'BACnet Analog Input (Regular)',
    0x0603: 'BACnet Analog Input (Extended)',
    0x0604: 'BACnet Analog Output (Regular)',
    0x0605: 'BACnet Analog Output (Extended)',
    0x0606: 'BACnet Analog Value (Regular)',
    0x0607: 'BACnet Analog Value (Extended)',
    0x0608: 'BACnet Binary Input (Regular)',
    0x0609: 'BACnet Binary Input (Extended)',
    0x060A: 'BACnet Binary Output (Regular)',
    0x060B: 'BACnet Binary Output (Extended)',
    0x060C: 'BACnet Binary Value (Regular)',
    0x060D: 'BACnet Binary Value (Extended)',
    0x060E: 'BACnet Multistage Input (Regular)',
    0x060F: 'BACnet Multistage Input (Extended)',
    0x0610: 'BACnet Multistage Output (Regular)',
    0x0611: 'BACnet Multistage Output (Extended)',
    0x0612: 'BACnet Multistage Value (Regular)',
    0x0613: 'BACnet Multistage Value (Extended)',
    0x0700: 'Price',
    0x0701: 'Demand Response and Load Control',
    0x0702: 'Simple Metering',
    0x0703: 'Message',
    0x0704: 'Tunneling',
    0x0705: 'Pre-Payment',
    0x0706: 'Energy Management',
    0x0707: 'Calendar',
    0x0708: 'Device Management',
    0x0709: 'Events',
    0x070A: 'MDU Pairing',
    0x070B: 'Sub-Ghz',
    0x070D: 'Daily Schedule',
    0x0800: 'Key Establishment',
    0x0B00: 'Appliance Identification',
    0x0B01: 'Meter Identification',
    0x0B02: 'Appliance Events And Alerts',
    0x0B03: 'Appliance Statistics',
    0x0B04: 'Electrical Measurement',
    0x1000: 'ZLL Commissioning',
}
ZDP_REQUESTS = {
    0x0000: 'Network Address Request',
    0x0001: 'IEEE Address Request',
    0x0002: 'Node Descriptor Request',
    0x0003: 'Power Descriptor Request',
    0x0004: 'Simple Descriptor Request',
    0x0005: 'Active Endpoints Request',
    0x0006: 'Match Descriptor Request',
    0x0013: 'Device Announce',
    0x0014: 'User Descriptor Set Request',
    0x0015: 'System Server Discovery Request',
    0x001F: 'Parent Announce',
    0x0020: 'End Device Bind Request',
    0x0021: 'Bind Request',
    0x0022: 'Unbind Request',
    0x0030: 'Network Discovery Request',
    0x0031: 'LQI Request',
    0x0032: 'Routing Request',
    0x0033: 'Bind Table Request',
    0x0034: 'Leave Request',
    0x0035: 'Direct Join Request',
    0x0036: 'Permit Join Request',
    0x0038: 'Network Update Request',
}
ZCL_COMMANDS = {
    0x00: 'Read Attributes',
    0x01: 'Read Attributes Response',
    0x02: 'Write Attributes',
    0x03: 'Write Attributes Undivided',
    0x04: 'Write Attributes Response',
    0x05: 'Write Attributes No Response',
    0x06: 'Configure Reporting',
    0x07: 'Configure Reporting Response',
    0x08: 'Read Reporting Configuration',
    0x09: 'Read Reporting Configuration Response',
    0x0A: 'Report Attributes',
    0x0B: 'Default Response',
    0x0C: 'Discover Attributes',
    0x0D: 'Discover Attributes Response',
    0x0E: 'Read Attributes Structured',
    0x0F: 'Write Attributes Structured',
    0x10: 'Write Attributes Structured Response',
    0x11: 'Discover Commands Received',
    0x12: 'Discover Commands Received Response',
    0x13: 'zbee_zcl_cmd_names',
}
ZDP, RESPONSE = 0x0000, 0x8000
# Bits of the frame control of the ZCL: a command of the cluster, and a manufacturer's code behind it.
OF_CLUSTER, OF_MANUFACTURER = 0x03, 0x04


def network_command(content: bytes) -> str:
    """Returns what a NWK command is."""
    return NWK_COMMANDS.get(content[0], f'NWK command {content[0]:02X}') if content else 'empty command'


def aps_command(content: bytes) -> str:
    """Returns what an APS command is."""
    return APS_COMMANDS.get(content[0], f'APS command {content[0]:02X}') if content else 'empty command'


def zdp_words(cluster: int) -> str:
    """Returns what a frame of the device profile is."""
    name = ZDP_REQUESTS.get(cluster & ~RESPONSE)
    if name is None:
        return f'ZDP {cluster:04X}'
    return f'ZDP {name.replace(" Request", "")} Response' if cluster & RESPONSE else f'ZDP {name}'


def zcl_command(content: bytes) -> Optional[str]:
    """Returns the command in the header of a ZCL frame, or none if the header is cut."""
    at = 4 if content and content[0] & OF_MANUFACTURER else 2
    if len(content) <= at:
        return None
    if content[0] & OF_CLUSTER:
        return f'command {content[at]:02X} of the cluster'
    return ZCL_COMMANDS.get(content[at], f'general command {content[at]:02X}')


def data_words(profile: Optional[int], cluster: Optional[int], content: Optional[bytes]) -> str:
    """Returns what a data frame carries: its cluster, and as far as its content is open its command and its size."""
    if cluster is None:
        return 'data'
    if profile == ZDP:
        return f'{zdp_words(cluster)}, ' + ('sealed' if content is None else f'{len(content)} bytes')
    name = CLUSTERS.get(cluster)
    head = f'data, cluster {cluster:04X}' + (f' {name}' if name else '')
    if content is None:
        return f'{head}, sealed'
    command = zcl_command(content) if name and profile in PROFILES else None
    return f'{head}, ' + (f'{command}, ' if command else '') + f'{len(content)} bytes'
