import io.netty.bootstrap.ServerBootstrap;
import io.netty.buffer.ByteBuf;
import io.netty.channel.Channel;
import io.netty.channel.ChannelHandlerContext;
import io.netty.channel.ChannelInboundHandlerAdapter;
import io.netty.channel.ChannelInitializer;
import io.netty.channel.ChannelOption;
import io.netty.channel.ChannelOutboundBuffer;
import io.netty.channel.nio.NioEventLoopGroup;
import io.netty.channel.socket.SocketChannel;
import io.netty.channel.socket.nio.NioServerSocketChannel;
import java.net.InetSocketAddress;
import java.nio.ByteBuffer;
import java.nio.ByteOrder;
import java.util.ArrayDeque;
import java.util.ArrayList;
import java.util.HashSet;
import java.util.List;
import java.util.Set;

/**
 * The same server over Netty (NIO, one worker loop), with its defaults: marks of 32768 and 65536, pooled buffers. It
 * streams responses while the channel is writable, goes on at channelWritabilityChanged, and reads only while there is
 * nothing to answer and the channel is writable.
 *
 * <p>NettyServer SECONDS SNDBUF. It prints its port, and ends at QUIT or after so many seconds. SNDBUF is SO_SNDBUF of its
 * sockets, or 0 for the system's own.
 */
public final class NettyServer {
    private static final int GET = 1;
    private static final int RESET = 3;
    private static final int QUIT = 4;
    private static final int HEAD = 16;
    private static final int MOST = 1 << 20;
    private static final int WINDOW = 1 << 16;
    private static final int MAGIC = 0x6c6b6b6c;
    private static final int JOIN = 5;
    private static final int PUBLISH = 6;
    private static final int STATS_SIZE = 64;
    private static final byte[] POOL = pool();

    // of the one worker thread
    private static long peak;
    private static long stops;
    private static long open;
    private static long responses;
    private static final List<ChannelHandlerContext> joined = new ArrayList<>();
    private static final Set<Channel> all = new HashSet<>();
    private static int held;
    private static Runnable publisher;

    private static byte[] pool() {
        ByteBuffer bytes = ByteBuffer.allocate(WINDOW + MOST).order(ByteOrder.LITTLE_ENDIAN);
        long state = 0x9e3779b97f4a7c15L;
        while (bytes.hasRemaining()) {
            state ^= state << 13;
            state ^= state >>> 7;
            state ^= state << 17;
            bytes.putLong(state);
        }
        return bytes.array();
    }

    private record Request(int op, int size, int count, int id) { }

    private static final class Handler extends ChannelInboundHandlerAdapter {
        private final ArrayDeque<Request> work = new ArrayDeque<>(1);
        private ByteBuf partial;
        private int index;
        private boolean hears;
        private boolean isHeld;

        @Override
        public void channelActive(ChannelHandlerContext ctx) {
            open++;
            all.add(ctx.channel());
        }

        @Override
        public void channelInactive(ChannelHandlerContext ctx) {
            open--;
            all.remove(ctx.channel());
            joined.remove(ctx);
            noteHeld(ctx, false);
            if (!work.isEmpty() && work.peek().op == PUBLISH) {
                publisher = null;
                work.clear();
            }
            if (partial != null) {
                partial.release();
                partial = null;
            }
        }

        @Override
        public void channelRead(ChannelHandlerContext ctx, Object message) {
            ByteBuf in = (ByteBuf) message;
            if (partial != null) {
                partial.writeBytes(in);
                in.release();
                in = partial;
                partial = null;
            }
            while (in.readableBytes() >= 16) {
                work.add(new Request(in.readIntLE(), in.readIntLE(), in.readIntLE(), in.readIntLE()));
            }
            if (in.isReadable()) {
                partial = ctx.alloc().buffer(64).writeBytes(in);
            }
            in.release();
            pump(ctx);
        }

        @Override
        public void channelReadComplete(ChannelHandlerContext ctx) {
            ctx.flush();
        }

        @Override
        public void channelWritabilityChanged(ChannelHandlerContext ctx) {
            noteHeld(ctx, hears && !ctx.channel().isWritable());
            if (ctx.channel().isWritable()) {
                pump(ctx);
            } else {
                stops++;
            }
        }

        @Override
        public void exceptionCaught(ChannelHandlerContext ctx, Throwable cause) {
            ctx.close();
        }

        /** Counts who is above its high mark; the publisher goes on when nobody is. */
        private void noteHeld(ChannelHandlerContext ctx, boolean now) {
            if (now != isHeld) {
                isHeld = now;
                held += now ? 1 : -1;
                if (held == 0 && publisher != null) {
                    ctx.executor().execute(publisher);
                }
            }
        }

        private void publish(ChannelHandlerContext ctx) {
            boolean any = false;
            while (held == 0 && !work.isEmpty() && work.peek().op == PUBLISH) {
                Request request = work.peek();
                ByteBuf message = make(ctx, request);
                for (ChannelHandlerContext to : joined) {
                    to.write(message.retainedDuplicate());
                    peak = Math.max(peak, to.channel().unsafe().outboundBuffer().totalPendingWriteBytes());
                }
                message.release();
                responses++;
                any = true;
                if (++index == request.count) {
                    index = 0;
                    work.remove();
                }
            }
            if (any) {
                for (ChannelHandlerContext to : new ArrayList<>(joined)) {
                    to.flush();
                }
            }
        }

        private void pump(ChannelHandlerContext ctx) {
            if (!work.isEmpty() && work.peek().op == JOIN) {
                work.remove();
                joined.add(ctx);
                hears = true;
                return;
            }
            if (!work.isEmpty() && work.peek().op == PUBLISH) {
                publisher = () -> publish(ctx);
                publish(ctx);
                return;
            }
            Channel channel = ctx.channel();
            boolean any = false;
            while (!work.isEmpty() && channel.isWritable()) {
                Request request = work.peek();
                ByteBuf response;
                if (request.op == GET) {
                    response = make(ctx, request);
                    if (++index == request.count) {
                        index = 0;
                        work.remove();
                    }
                } else {
                    work.remove();
                    if (request.op == QUIT) {
                        System.exit(0);
                    }
                    if (request.op == RESET) {
                        peak = stops = responses = 0;
                    }
                    response = stats(ctx, request);
                }
                responses++;
                ctx.write(response);
                any = true;
                // for the report alone
                ChannelOutboundBuffer buffer = channel.unsafe().outboundBuffer();
                if (buffer != null) {
                    peak = Math.max(peak, buffer.totalPendingWriteBytes());
                }
            }
            if (any) {
                ctx.flush();
            }
            channel.config().setAutoRead(work.isEmpty() && channel.isWritable());
        }

        private static ByteBuf make(ChannelHandlerContext ctx, Request request, int index) {
            ByteBuf response = ctx.alloc().buffer(request.size);
            response.writeIntLE(request.id).writeIntLE(index).writeIntLE(request.size).writeIntLE(MAGIC);
            int from = (request.id * (int) 2654435761L + index * 40503) & (WINDOW - 1);
            return response.writeBytes(POOL, from, request.size - HEAD);
        }

        private ByteBuf make(ChannelHandlerContext ctx, Request request) {
            return make(ctx, request, index);
        }

        private static long pending() {
            long sum = 0;
            for (Channel channel : all) {
                ChannelOutboundBuffer buffer = channel.unsafe().outboundBuffer();
                sum += buffer == null ? 0 : buffer.totalPendingWriteBytes();
            }
            return sum;
        }

        private static ByteBuf stats(ChannelHandlerContext ctx, Request request) {
            ByteBuf response = ctx.alloc().buffer(STATS_SIZE);
            response.writeIntLE(request.id).writeIntLE(0).writeIntLE(STATS_SIZE).writeIntLE(MAGIC);
            response.writeLongLE(peak).writeLongLE(stops).writeLongLE(open).writeLongLE(responses);
            return response.writeLongLE(pending()).writeLongLE(0);
        }
    }

    public static void main(String[] words) throws Exception {
        int seconds = Integer.parseInt(words[0]);
        int sendRoom = Integer.parseInt(words[1]);
        Thread end = new Thread(() -> {
            try {
                Thread.sleep(seconds * 1000L);
            } catch (InterruptedException gone) {
                return;
            }
            Runtime.getRuntime().halt(0);
        });
        end.setDaemon(true);
        end.start();
        ServerBootstrap bootstrap = new ServerBootstrap()
            .group(new NioEventLoopGroup(1), new NioEventLoopGroup(1))
            .channel(NioServerSocketChannel.class)
            .option(ChannelOption.SO_BACKLOG, 4096)
            .childOption(ChannelOption.TCP_NODELAY, true)
            .childHandler(new ChannelInitializer<SocketChannel>() {
                @Override
                protected void initChannel(SocketChannel channel) {
                    channel.pipeline().addLast(new Handler());
                }
            });
        if (sendRoom > 0) {
            bootstrap.childOption(ChannelOption.SO_SNDBUF, sendRoom);
        }
        Channel channel = bootstrap.bind(new InetSocketAddress("127.0.0.1", 0)).sync().channel();
        System.out.println(((InetSocketAddress) channel.localAddress()).getPort());
        System.out.flush();
        channel.closeFuture().sync();
    }
}
