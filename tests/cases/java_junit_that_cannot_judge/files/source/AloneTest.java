import org.junit.jupiter.api.parallel.Isolated;

@Isolated
class AloneTest extends OneTest { }
