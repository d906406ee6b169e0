package jentry.jcache.jsr107;

import java.lang.reflect.AnnotatedElement;
import java.lang.reflect.Method;
import java.util.List;
import java.util.stream.Stream;
import org.junit.jupiter.api.extension.AfterEachCallback;
import org.junit.jupiter.api.extension.Extension;
import org.junit.jupiter.api.extension.ExtensionContext;
import org.junit.jupiter.api.extension.InvocationInterceptor;
import org.junit.jupiter.api.extension.ParameterContext;
import org.junit.jupiter.api.extension.ParameterResolver;
import org.junit.jupiter.api.extension.ReflectiveInvocationContext;
import org.junit.jupiter.api.extension.TestTemplateInvocationContext;
import org.junit.jupiter.api.extension.TestTemplateInvocationContextProvider;
import org.opentest4j.AssertionFailedError;

/** Runs each check on the reference and on the store under test, where it has to fail if the table of deviations says so. */
final class Subjects implements TestTemplateInvocationContextProvider {
    @Override public boolean supportsTestTemplate(ExtensionContext context) {
        return true;
    }

    @Override public Stream<TestTemplateInvocationContext> provideTestTemplateInvocationContexts(ExtensionContext context) {
        return Stream.of(new On(Subject.REFERENCE), new On(Subject.storeUnderTest()));
    }

    /** Returns the rows of the table that a check belongs to. */
    static List<String> rowsOf(AnnotatedElement method, Class<?> type) {
        Deviates by = method.isAnnotationPresent(Deviates.class) ? method.getAnnotation(Deviates.class) : type.getAnnotation(Deviates.class);
        return by == null ? List.of() : List.of(by.value());
    }

    private record On(String store) implements TestTemplateInvocationContext {
        @Override public String getDisplayName(int index) {
            return store;
        }

        @Override public List<Extension> getAdditionalExtensions() {
            return List.of(new Run(store));
        }
    }

    private static final class Run implements ParameterResolver, InvocationInterceptor, AfterEachCallback {
        private final Subject subject;

        Run(String store) {
            subject = new Subject(store);
        }

        @Override public boolean supportsParameter(ParameterContext parameter, ExtensionContext context) {
            return parameter.getParameter().getType() == Subject.class;
        }

        @Override public Object resolveParameter(ParameterContext parameter, ExtensionContext context) {
            return subject;
        }

        @Override public void interceptTestTemplateMethod(Invocation<Void> check, ReflectiveInvocationContext<Method> method, ExtensionContext context)
            throws Throwable {
            List<String> rows = rowsOf(method.getExecutable(), context.getRequiredTestClass());
            if (subject.isReference() || rows.stream().noneMatch(it -> DeviationTable.OF_THE_PAGE.deviates(it, subject.store()))) {
                check.proceed();
                return;
            }
            try {
                check.proceed();
            } catch (AssertionError | RuntimeException e) {
                return;
            }
            throw new AssertionFailedError("the check passes on " + subject.store() + ", but the table of deviations has it under " + rows);
        }

        @Override public void afterEach(ExtensionContext context) {
            subject.close();
        }
    }
}
