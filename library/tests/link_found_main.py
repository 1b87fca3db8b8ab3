

def main(host, *shelf):
    """Calls the example of EMBEDDING.md, which stands above: links a host with those of the other files that it needs."""
    import sys

    try:
        sys.stdout.buffer.write(link_found(host, list(shelf)))
    except pslink.Refused as fault:
        print(f"pslink: {fault}", file=sys.stderr)
        return 1
    return len(warnings(host, shelf))


if __name__ == "__main__":
    import sys

    sys.exit(main(*sys.argv[1:]))
