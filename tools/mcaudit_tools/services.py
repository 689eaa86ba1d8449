"""Groups of services that hosts join and send to by themselves, where nobody watches a stream."""

SERVICES = {
    "224.0.1.1": "NTP", "224.0.1.22": "SLP", "224.0.1.24": "WINS", "224.0.1.35": "SLP", "224.0.1.39": "Auto-RP",
    "224.0.1.40": "Auto-RP", "224.0.1.60": "HP", "224.0.1.75": "SIP", "224.0.1.187": "CoAP", "224.0.23.12": "KNX",
    "224.2.127.254": "SAP", "239.195.255.255": "SAP", "239.255.255.250": "SSDP", "239.255.255.253": "SLP",
    "239.255.255.255": "SAP"}
