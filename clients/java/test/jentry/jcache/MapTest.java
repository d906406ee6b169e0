package jentry.jcache;

import static org.junit.jupiter.api.Assertions.assertEquals;
import static org.junit.jupiter.api.Assertions.assertTrue;

import java.util.ArrayList;
import java.util.List;
import java.util.concurrent.ThreadLocalRandom;
import java.util.stream.Stream;
import javax.cache.Cache;
import javax.cache.configuration.MutableConfiguration;
import javax.cache.expiry.CreatedExpiryPolicy;
import javax.cache.expiry.Duration;
import javax.cache.expiry.ExpiryPolicy;
import javax.cache.expiry.TouchedExpiryPolicy;
import org.junit.jupiter.api.Test;

/** Tests many threads on few keys of the real server: the results on each key must be possible for a ConcurrentHashMap. */
class MapTest extends OnServer {
    private static final History.Method[] METHODS = History.Method.values();
    private static final List<History.Method> PLAIN = List.of(History.Method.PUT, History.Method.GET, History.Method.REMOVE);

    private static <T> T any(List<T> of) {
        return of.get(ThreadLocalRandom.current().nextInt(of.size()));
    }

    /** Runs {@code threads} threads with {@code calls} calls each of these methods, on one new key per history. Half of the threads use another connection. */
    private void run(int threads, int calls, long first, List<History> histories, List<History.Method> methods) throws InterruptedException {
        run(cache, server.other(), threads, calls, first, histories, methods);
    }

    private void run(Cache<Long, Long> one, Cache<Long, Long> other, int threads, int calls, long first, List<History> histories,
        List<History.Method> methods) throws InterruptedException {
        Team.of(threads, t -> {
            Cache<Long, Long> mine = t % 2 == 0 ? one : other;
            for (int i = 0; i < calls; i++) {
                int at = ThreadLocalRandom.current().nextInt(histories.size());
                History.Method method = any(methods);
                long old = ThreadLocalRandom.current().nextLong(3), value = ThreadLocalRandom.current().nextLong(3);
                histories.get(at).call(method, old, value, () -> method.onCache.call(mine, server.key(first + at), old, value));
            }
        }).join();
        assertEquals(threads * calls, histories.stream().mapToInt(History::size).sum());
        histories.forEach(it -> assertTrue(it.isAllowed(), it::toString));
    }

    private static List<History> histories(int count) {
        return Stream.generate(History::new).limit(count).toList();
    }

    @Test void allMethodsOnTwoKeys() throws InterruptedException {
        for (int n = 0; n < 100; n++) {
            run(6, 5, 100 + 2 * n, histories(2), List.of(METHODS));
        }
    }

    /** Like a policy of JCache, but a class that the provider doesn't know. */
    private static final class Own implements ExpiryPolicy {
        @Override public Duration getExpiryForCreation() {
            return Duration.ONE_HOUR;
        }

        @Override public Duration getExpiryForUpdate() {
            return Duration.ONE_DAY;
        }

        @Override public Duration getExpiryForAccess() {
            return Duration.ONE_HOUR;
        }
    }

    @Test void allMethodsWithStatisticsListenersAndExpiry() throws InterruptedException {
        List<MutableConfiguration<Long, Long>> configurations = new ArrayList<>();
        configurations.add(Server.types());
        configurations.add(Server.types().setStatisticsEnabled(true));
        configurations.add(Server.types().addCacheEntryListenerConfiguration(new Heard(0).by(true, true)));
        if (Server.isRedis()) {
            configurations.add(Server.types().setExpiryPolicyFactory(TouchedExpiryPolicy.factoryOf(Duration.ONE_HOUR)));
            configurations.add(Server.types().setExpiryPolicyFactory(CreatedExpiryPolicy.factoryOf(Duration.ONE_HOUR)));
            configurations.add(Server.types().setExpiryPolicyFactory(Own::new));
        }
        for (int c = 0; c < configurations.size(); c++) {
            Cache<Long, Long> one = create(configurations.get(c));
            Cache<Long, Long> other = Server.isShared() ? create(configurations.get(c)) : one;
            for (int n = 0; n < 10; n++) {
                run(one, other, 6, 5, 10_000 + 1_000 * c + 2 * n, histories(2), List.of(METHODS));
            }
            run(one, other, 64, 4, 10_900 + 1_000 * c, histories(16), List.of(METHODS));
        }
    }

    @Test void eachMethodBesidePutGetAndRemoveBy64Threads() throws InterruptedException {
        for (History.Method method : METHODS) {
            List<History.Method> half = Stream.concat(PLAIN.stream(), Stream.of(method, method, method)).toList();
            run(64, 4, 1_000 + 100 * method.ordinal(), histories(16), half);
        }
    }
}
