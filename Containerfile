# The program and its tools in an image, for build servers: docs/TOOLS.md, "On a build server".
#
#     podman build -t winthazu .
#     podman run --rm -v "$PWD:/bundles" winthazu osgi-check-bundles first.jar second.jar
#
# The program is the one of dist/, which has to be proved from the sources of the checkout: no Rattle kit is in the
# image, so nothing is proved or built in it.

FROM debian:bookworm-slim AS install
RUN apt-get update && apt-get install -y --no-install-recommends python3 && rm -rf /var/lib/apt/lists/*
COPY . /src
RUN /src/tools/install /opt/winthazu

FROM debian:bookworm-slim
RUN apt-get update && apt-get install -y --no-install-recommends python3 graphviz && rm -rf /var/lib/apt/lists/*
COPY --from=install /opt/winthazu /usr/local
WORKDIR /bundles
CMD ["osgi", "help"]
