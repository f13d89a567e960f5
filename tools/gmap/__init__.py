"""What the tools share: files and faults, schemes and maps as text and bytes, the kernel as a library, refusals in words, pictures, the text of the sources."""
