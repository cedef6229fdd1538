"""The parts of tools/use/network-report: what is asked, the network's names, the picture and the page."""
