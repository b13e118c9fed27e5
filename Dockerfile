# An image of the archive that `make release` has left in this folder.
#
#   docker build -t phpsa .
#   docker run --rm -v "$PWD:/pages:ro" phpsa check page.php

FROM debian:bookworm-slim
ADD phpsa-*-x86_64-linux.tar.gz /opt/
RUN ln -s /opt/phpsa-*/bin/phpsa /usr/local/bin/phpsa
WORKDIR /pages
ENTRYPOINT ["phpsa"]
